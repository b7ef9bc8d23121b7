# Limits: how many of a kind are kept, and what is refused beyond.

== 16 panels are kept, the default one among them
loop n 0 14
call 0 0 0 CreateControlPanel {"ControlPanelName":"p{n+2}"}
endloop
call 0 0 0 CreateControlPanel {"ControlPanelName":"more"}
# The limit is told before a taken name.
call 0 0 0 CreateControlPanel {"ControlPanelName":"p2"}
call 0 0 0 DeleteControlPanel {"ControlPanelArn":"arn:arc:panel/0000000000000005"}
call 0 0 0 CreateControlPanel {"ControlPanelName":"p2"}
call 0 0 0 CreateControlPanel {"ControlPanelName":"more"}
call 0 0 0 CreateControlPanel {"ControlPanelName":"again"}
----
loop n 0 14
slot {n} token {n+1} 200 {"ControlPanel":{"ControlPanelArn":"arn:arc:panel/{n+2:016x}","Name":"p{n+2}"}}
endloop
slot 15 token 16 402 {"Count":16,"Reason":"Limit","__type":"ServiceLimitExceededException"}
slot 16 token 17 402 {"Count":16,"Reason":"Limit","__type":"ServiceLimitExceededException"}
slot 17 token 18 200 {}
slot 18 token 19 409 {"Reason":"NameTaken","Resource":"arn:arc:panel/0000000000000002","__type":"ConflictException"}
slot 19 token 20 200 {"ControlPanel":{"ControlPanelArn":"arn:arc:panel/0000000000000011","Name":"more"}}
slot 20 token 21 402 {"Count":16,"Reason":"Limit","__type":"ServiceLimitExceededException"}

== 256 controls are kept
loop n 0 255
new 0 0 0 c{n+1}
endloop
new 0 0 0 more
# The limit is told before a taken name, and behind an unknown panel.
new 0 0 0 c1
call 0 0 0 CreateRoutingControl {"RoutingControlName":"more","ControlPanelArn":"arn:arc:panel/0000000000000002"}
call 0 0 0 DeleteRoutingControl {"RoutingControlArn":"arn:arc:control/0000000000000007"}
new 0 0 0 c1
new 0 0 0 more
new 0 0 0 again
----
loop n 0 255
slot {n} token {n+1} 200 {"RoutingControl":{"ControlPanelArn":"arn:arc:panel/0000000000000001","Name":"c{n+1}","RoutingControlArn":"arn:arc:control/{n+1:016x}"}}
endloop
slot 256 token 257 402 {"Count":256,"Reason":"Limit","__type":"ServiceLimitExceededException"}
slot 257 token 258 402 {"Count":256,"Reason":"Limit","__type":"ServiceLimitExceededException"}
slot 258 token 259 404 {"Reason":"NotFound","Resource":"arn:arc:panel/0000000000000002","__type":"ResourceNotFoundException"}
slot 259 token 260 200 {}
slot 260 token 261 409 {"Reason":"NameTaken","Resource":"arn:arc:control/0000000000000001","__type":"ConflictException"}
slot 261 token 262 200 {"RoutingControl":{"ControlPanelArn":"arn:arc:panel/0000000000000001","Name":"more","RoutingControlArn":"arn:arc:control/0000000000000101"}}
slot 262 token 263 402 {"Count":256,"Reason":"Limit","__type":"ServiceLimitExceededException"}

== the controls of all panels are counted together
call 0 0 0 CreateControlPanel {"ControlPanelName":"ops"}
loop n 0 127
new 0 0 0 c{n+1}
call 0 0 0 CreateRoutingControl {"RoutingControlName":"c{n+1}","ControlPanelArn":"arn:arc:panel/0000000000000002"}
endloop
new 0 0 0 more
call 0 0 0 CreateRoutingControl {"RoutingControlName":"more","ControlPanelArn":"arn:arc:panel/0000000000000002"}
----
slot 0 token 1 200 {"ControlPanel":{"ControlPanelArn":"arn:arc:panel/0000000000000002","Name":"ops"}}
loop n 0 127
slot {2n+1} token {2n+2} 200 {"RoutingControl":{"ControlPanelArn":"arn:arc:panel/0000000000000001","Name":"c{n+1}","RoutingControlArn":"arn:arc:control/{2n+1:016x}"}}
slot {2n+2} token {2n+3} 200 {"RoutingControl":{"ControlPanelArn":"arn:arc:panel/0000000000000002","Name":"c{n+1}","RoutingControlArn":"arn:arc:control/{2n+2:016x}"}}
endloop
slot 257 token 258 402 {"Count":256,"Reason":"Limit","__type":"ServiceLimitExceededException"}
slot 258 token 259 402 {"Count":256,"Reason":"Limit","__type":"ServiceLimitExceededException"}

== 64 rules are kept
new 0 0 0 a
loop n 1 64
assert 0 0 0 r{n} OR 0 1
endloop
assert 0 0 0 more OR 0 1
gate 0 0 0 more OR 0 1 1
# The limit is told before a taken name, and behind what isn't there.
assert 0 0 0 r1 OR 0 1
assert 0 0 0 more OR 0 2
call 0 0 0 CreateSafetyRule {"AssertionRule":{"Name":"more","ControlPanelArn":"arn:arc:panel/0000000000000002","AssertedControls":["arn:arc:control/0000000000000001"],"RuleConfig":{"Type":"OR"},"WaitPeriodMs":0}}
# A change of a rule makes no rule.
call 0 0 0 UpdateSafetyRule {"AssertionRuleUpdate":{"SafetyRuleArn":"arn:arc:rule/0000000000000005","Name":"changed","WaitPeriodMs":1}}
call 0 0 0 DeleteSafetyRule {"SafetyRuleArn":"arn:arc:rule/0000000000000005"}
assert 0 0 0 r1 OR 0 1
assert 0 0 0 more OR 0 1
assert 0 0 0 again OR 0 1
----
slot 0 token 1 200 {"RoutingControl":{"ControlPanelArn":"arn:arc:panel/0000000000000001","Name":"a","RoutingControlArn":"arn:arc:control/0000000000000001"}}
loop n 1 64
slot {n} token {n+1} 200 {"SafetyRuleArn":"arn:arc:rule/{n:016x}"}
endloop
slot 65 token 66 402 {"Count":64,"Reason":"Limit","__type":"ServiceLimitExceededException"}
slot 66 token 67 402 {"Count":64,"Reason":"Limit","__type":"ServiceLimitExceededException"}
slot 67 token 68 402 {"Count":64,"Reason":"Limit","__type":"ServiceLimitExceededException"}
slot 68 token 69 404 {"Reason":"NotFound","Resource":"arn:arc:control/0000000000000002","__type":"ResourceNotFoundException"}
slot 69 token 70 404 {"Reason":"NotFound","Resource":"arn:arc:panel/0000000000000002","__type":"ResourceNotFoundException"}
slot 70 token 71 200 {}
slot 71 token 72 200 {}
slot 72 token 73 409 {"Reason":"NameTaken","Resource":"arn:arc:rule/0000000000000001","__type":"ConflictException"}
slot 73 token 74 200 {"SafetyRuleArn":"arn:arc:rule/0000000000000041"}
slot 74 token 75 402 {"Count":64,"Reason":"Limit","__type":"ServiceLimitExceededException"}

== the rules of all panels are counted together
call 0 0 0 CreateControlPanel {"ControlPanelName":"ops"}
new 0 0 0 a
call 0 0 0 CreateRoutingControl {"RoutingControlName":"x","ControlPanelArn":"arn:arc:panel/0000000000000002"}
loop n 0 31
assert 0 0 0 r{n+1} OR 0 1
call 0 0 0 CreateSafetyRule {"AssertionRule":{"Name":"r{n+1}","ControlPanelArn":"arn:arc:panel/0000000000000002","AssertedControls":["arn:arc:control/0000000000000002"],"RuleConfig":{"Type":"OR"},"WaitPeriodMs":0}}
endloop
assert 0 0 0 more OR 0 1
call 0 0 0 CreateSafetyRule {"AssertionRule":{"Name":"more","ControlPanelArn":"arn:arc:panel/0000000000000002","AssertedControls":["arn:arc:control/0000000000000002"],"RuleConfig":{"Type":"OR"},"WaitPeriodMs":0}}
----
slot 0 token 1 200 {"ControlPanel":{"ControlPanelArn":"arn:arc:panel/0000000000000002","Name":"ops"}}
slot 1 token 2 200 {"RoutingControl":{"ControlPanelArn":"arn:arc:panel/0000000000000001","Name":"a","RoutingControlArn":"arn:arc:control/0000000000000001"}}
slot 2 token 3 200 {"RoutingControl":{"ControlPanelArn":"arn:arc:panel/0000000000000002","Name":"x","RoutingControlArn":"arn:arc:control/0000000000000002"}}
loop n 0 31
slot {2n+3} token {2n+4} 200 {"SafetyRuleArn":"arn:arc:rule/{2n+1:016x}"}
slot {2n+4} token {2n+5} 200 {"SafetyRuleArn":"arn:arc:rule/{2n+2:016x}"}
endloop
slot 67 token 68 402 {"Count":64,"Reason":"Limit","__type":"ServiceLimitExceededException"}
slot 68 token 69 402 {"Count":64,"Reason":"Limit","__type":"ServiceLimitExceededException"}

== a gate has up to 32 gating controls and 32 targets
loop n 0 63
new 0 0 0 c{n+1}
endloop
gate 0 0 0 wide ATLEAST:32 0 1,2,3,4,5,6,7,8,9,10,11,12,13,14,15,16,17,18,19,20,21,22,23,24,25,26,27,28,29,30,31,32 33,34,35,36,37,38,39,40,41,42,43,44,45,46,47,48,49,50,51,52,53,54,55,56,57,58,59,60,61,62,63,64
set 0 0 0 64 On
batch 0 0 0 1=On,2=On,3=On,4=On,5=On,6=On,7=On,8=On,9=On,10=On,11=On,12=On,13=On,14=On,15=On,16=On -
batch 0 0 0 17=On,18=On,19=On,20=On,21=On,22=On,23=On,24=On,25=On,26=On,27=On,28=On,29=On,30=On,31=On -
set 0 0 0 64 On
set 0 0 0 32 On
set 0 0 0 64 On
----
loop n 0 63
slot {n} token {n+1} 200 {"RoutingControl":{"ControlPanelArn":"arn:arc:panel/0000000000000001","Name":"c{n+1}","RoutingControlArn":"arn:arc:control/{n+1:016x}"}}
endloop
slot 64 token 65 200 {"SafetyRuleArn":"arn:arc:rule/0000000000000001"}
slot 65 token 66 409 {"Reason":"Forbidden","Rules":[{"Cause":"GateClosed","SafetyRuleArn":"arn:arc:rule/0000000000000001"}],"__type":"ConflictException"}
slot 66 token 67 200 {}
slot 67 token 68 200 {}
slot 68 token 69 409 {"Reason":"Forbidden","Rules":[{"Cause":"GateClosed","SafetyRuleArn":"arn:arc:rule/0000000000000001"}],"__type":"ConflictException"}
slot 69 token 70 200 {}
slot 70 token 71 200 {}

== an assertion has at most 32 controls
assert 0 0 0 r AND 0 1,2,3,4,5,6,7,8,9,10,11,12,13,14,15,16,17,18,19,20,21,22,23,24,25,26,27,28,29,30,31,32,33
---- status 6
script line 1: TooManyEntries

== a gate has at most 32 gating controls
gate 0 0 0 r AND 0 1,2,3,4,5,6,7,8,9,10,11,12,13,14,15,16,17,18,19,20,21,22,23,24,25,26,27,28,29,30,31,32,33 1
---- status 6
script line 1: TooManyEntries

== a gate has at most 32 targets
gate 0 0 0 r AND 0 1 1,2,3,4,5,6,7,8,9,10,11,12,13,14,15,16,17,18,19,20,21,22,23,24,25,26,27,28,29,30,31,32,33
---- status 6
script line 1: TooManyEntries

== a control stands once in a list of a rule
assert 0 0 0 r AND 0 1,2,1
---- status 6
script line 1: DoubledEntry

== the threshold is at most the number of the controls
assert 0 0 0 r ATLEAST:3 0 1,2
---- status 6
script line 1: Config

== the threshold is at least one
assert 0 0 0 r ATLEAST:0 0 1,2
---- status 6
script line 1: Config

== the threshold of a gate is at most the number of the gating controls, whatever the number of targets
gate 0 0 0 r ATLEAST:2 0 1 1,2,3
---- status 6
script line 1: Config

== a wait is at most a week
assert 0 0 0 r AND 604800001 1
---- status 6
script line 1: Number
