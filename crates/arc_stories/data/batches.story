# Batches: several switches at once, all of them or none.

== a batch sets all of its entries
new 0 0 0 a
new 0 0 0 b
new 0 0 0 c
set 0 0 0 2 On
batch 0 0 0 3=On,1=On,2=Off -
call 0 0 0 ListRoutingControls
----
slot 0 token 1 200 {"RoutingControl":{"ControlPanelArn":"arn:arc:panel/0000000000000001","Name":"a","RoutingControlArn":"arn:arc:control/0000000000000001"}}
slot 1 token 2 200 {"RoutingControl":{"ControlPanelArn":"arn:arc:panel/0000000000000001","Name":"b","RoutingControlArn":"arn:arc:control/0000000000000002"}}
slot 2 token 3 200 {"RoutingControl":{"ControlPanelArn":"arn:arc:panel/0000000000000001","Name":"c","RoutingControlArn":"arn:arc:control/0000000000000003"}}
slot 3 token 4 200 {}
slot 4 token 5 200 {}
slot 5 token 6 200 {"RoutingControls":[{"ControlPanelArn":"arn:arc:panel/0000000000000001","RoutingControlArn":"arn:arc:control/0000000000000001","RoutingControlName":"a","RoutingControlState":"On"},{"ControlPanelArn":"arn:arc:panel/0000000000000001","RoutingControlArn":"arn:arc:control/0000000000000002","RoutingControlName":"b","RoutingControlState":"Off"},{"ControlPanelArn":"arn:arc:panel/0000000000000001","RoutingControlArn":"arn:arc:control/0000000000000003","RoutingControlName":"c","RoutingControlState":"On"}]}

== a batch that changes nothing is done
new 0 0 0 a
batch 0 0 0 1=Off -
get 0 0 0 1
----
slot 0 token 1 200 {"RoutingControl":{"ControlPanelArn":"arn:arc:panel/0000000000000001","Name":"a","RoutingControlArn":"arn:arc:control/0000000000000001"}}
slot 1 token 2 200 {}
slot 2 token 3 200 {"RoutingControlArn":"arn:arc:control/0000000000000001","RoutingControlName":"a","RoutingControlState":"Off"}

== a refused batch sets none of its entries, before or behind the one that is forbidden
new 0 0 0 a
new 0 0 0 b
new 0 0 0 c
assert 0 0 0 b-off !OR 0 2
batch 0 0 0 1=On,2=On,3=On -
call 0 0 0 ListRoutingControls
----
slot 0 token 1 200 {"RoutingControl":{"ControlPanelArn":"arn:arc:panel/0000000000000001","Name":"a","RoutingControlArn":"arn:arc:control/0000000000000001"}}
slot 1 token 2 200 {"RoutingControl":{"ControlPanelArn":"arn:arc:panel/0000000000000001","Name":"b","RoutingControlArn":"arn:arc:control/0000000000000002"}}
slot 2 token 3 200 {"RoutingControl":{"ControlPanelArn":"arn:arc:panel/0000000000000001","Name":"c","RoutingControlArn":"arn:arc:control/0000000000000003"}}
slot 3 token 4 200 {"SafetyRuleArn":"arn:arc:rule/0000000000000001"}
slot 4 token 5 409 {"Reason":"Forbidden","Rules":[{"Cause":"AssertFalse","SafetyRuleArn":"arn:arc:rule/0000000000000001"}],"__type":"ConflictException"}
slot 5 token 6 200 {"RoutingControls":[{"ControlPanelArn":"arn:arc:panel/0000000000000001","RoutingControlArn":"arn:arc:control/0000000000000001","RoutingControlName":"a","RoutingControlState":"Off"},{"ControlPanelArn":"arn:arc:panel/0000000000000001","RoutingControlArn":"arn:arc:control/0000000000000002","RoutingControlName":"b","RoutingControlState":"Off"},{"ControlPanelArn":"arn:arc:panel/0000000000000001","RoutingControlArn":"arn:arc:control/0000000000000003","RoutingControlName":"c","RoutingControlState":"Off"}]}

== a batch with an unknown control sets none of its entries
new 0 0 0 a
batch 0 0 0 1=On,2=On -
get 0 0 0 1
----
slot 0 token 1 200 {"RoutingControl":{"ControlPanelArn":"arn:arc:panel/0000000000000001","Name":"a","RoutingControlArn":"arn:arc:control/0000000000000001"}}
slot 1 token 2 404 {"Reason":"NotFound","Resource":"arn:arc:control/0000000000000002","__type":"ResourceNotFoundException"}
slot 2 token 3 200 {"RoutingControlArn":"arn:arc:control/0000000000000001","RoutingControlName":"a","RoutingControlState":"Off"}

== the first unknown control of a batch is named
new 0 0 0 a
batch 0 0 0 1=On,9=On,8=Off -
----
slot 0 token 1 200 {"RoutingControl":{"ControlPanelArn":"arn:arc:panel/0000000000000001","Name":"a","RoutingControlArn":"arn:arc:control/0000000000000001"}}
slot 1 token 2 404 {"Reason":"NotFound","Resource":"arn:arc:control/0000000000000009","__type":"ResourceNotFoundException"}

== an unknown control is told before an unknown override
new 0 0 0 a
batch 0 0 0 1=On,3=On 2
batch 0 0 0 1=On 2
----
slot 0 token 1 200 {"RoutingControl":{"ControlPanelArn":"arn:arc:panel/0000000000000001","Name":"a","RoutingControlArn":"arn:arc:control/0000000000000001"}}
slot 1 token 2 404 {"Reason":"NotFound","Resource":"arn:arc:control/0000000000000003","__type":"ResourceNotFoundException"}
slot 2 token 3 404 {"Reason":"NotFound","Resource":"arn:arc:rule/0000000000000002","__type":"ResourceNotFoundException"}

== an unknown control comes before an unknown override, and that before what forbids
new 0 0 0 a
new 0 0 0 b
gate 0 0 0 gate AND 0 1 2
batch 0 1 0 1=On,3=On 2
batch 0 1 0 2=On 1,2
batch 0 1 0 2=On -
call 0 1 0 ListRoutingControls
----
slot 0 token 1 200 {"RoutingControl":{"ControlPanelArn":"arn:arc:panel/0000000000000001","Name":"a","RoutingControlArn":"arn:arc:control/0000000000000001"}}
slot 1 token 2 200 {"RoutingControl":{"ControlPanelArn":"arn:arc:panel/0000000000000001","Name":"b","RoutingControlArn":"arn:arc:control/0000000000000002"}}
slot 2 token 3 200 {"SafetyRuleArn":"arn:arc:rule/0000000000000001"}
slot 3 token 4 404 {"Reason":"NotFound","Resource":"arn:arc:control/0000000000000003","__type":"ResourceNotFoundException"}
slot 4 token 5 404 {"Reason":"NotFound","Resource":"arn:arc:rule/0000000000000002","__type":"ResourceNotFoundException"}
slot 5 token 6 409 {"Reason":"Forbidden","Rules":[{"Cause":"GateClosed","SafetyRuleArn":"arn:arc:rule/0000000000000001"}],"__type":"ConflictException"}
slot 6 token 7 200 {"RoutingControls":[{"ControlPanelArn":"arn:arc:panel/0000000000000001","RoutingControlArn":"arn:arc:control/0000000000000001","RoutingControlName":"a","RoutingControlState":"Off"},{"ControlPanelArn":"arn:arc:panel/0000000000000001","RoutingControlArn":"arn:arc:control/0000000000000002","RoutingControlName":"b","RoutingControlState":"Off"}]}

== all rules that forbid a batch are named, in the order in which they were made
new 0 0 0 g
new 0 0 0 a
new 0 0 0 b
gate 0 0 0 z AND 0 1 2
assert 0 0 0 y !OR 0 3
assert 0 0 0 met OR 0 2,3
gate 0 0 0 x !AND 500 1 3
assert 0 0 0 a !AND 0 2,3
batch 0 10 0 3=On 2
set 0 20 0 3 Off
batch 0 20 0 2=On,3=Off -
batch 0 20 0 2=On -
----
slot 0 token 1 200 {"RoutingControl":{"ControlPanelArn":"arn:arc:panel/0000000000000001","Name":"g","RoutingControlArn":"arn:arc:control/0000000000000001"}}
slot 1 token 2 200 {"RoutingControl":{"ControlPanelArn":"arn:arc:panel/0000000000000001","Name":"a","RoutingControlArn":"arn:arc:control/0000000000000002"}}
slot 2 token 3 200 {"RoutingControl":{"ControlPanelArn":"arn:arc:panel/0000000000000001","Name":"b","RoutingControlArn":"arn:arc:control/0000000000000003"}}
slot 3 token 4 200 {"SafetyRuleArn":"arn:arc:rule/0000000000000001"}
slot 4 token 5 200 {"SafetyRuleArn":"arn:arc:rule/0000000000000002"}
slot 5 token 6 200 {"SafetyRuleArn":"arn:arc:rule/0000000000000003"}
slot 6 token 7 200 {"SafetyRuleArn":"arn:arc:rule/0000000000000004"}
slot 7 token 8 200 {"SafetyRuleArn":"arn:arc:rule/0000000000000005"}
slot 8 token 9 200 {}
slot 9 token 10 409 {"Reason":"Forbidden","Rules":[{"Cause":"AssertFalse","SafetyRuleArn":"arn:arc:rule/0000000000000003"},{"Cause":"Waiting","SafetyRuleArn":"arn:arc:rule/0000000000000004","Until":510}],"__type":"ConflictException"}
slot 10 token 11 409 {"Reason":"Forbidden","Rules":[{"Cause":"GateClosed","SafetyRuleArn":"arn:arc:rule/0000000000000001"},{"Cause":"Waiting","SafetyRuleArn":"arn:arc:rule/0000000000000004","Until":510}],"__type":"ConflictException"}
slot 11 token 12 409 {"Reason":"Forbidden","Rules":[{"Cause":"GateClosed","SafetyRuleArn":"arn:arc:rule/0000000000000001"},{"Cause":"AssertFalse","SafetyRuleArn":"arn:arc:rule/0000000000000005"}],"__type":"ConflictException"}

== a batch may set controls of several panels, and meets the rules of each
call 0 0 0 CreateControlPanel {"ControlPanelName":"ops"}
new 0 0 0 a
call 0 0 0 CreateRoutingControl {"RoutingControlName":"x","ControlPanelArn":"arn:arc:panel/0000000000000002"}
call 0 0 0 CreateSafetyRule {"AssertionRule":{"Name":"x-off","ControlPanelArn":"arn:arc:panel/0000000000000002","AssertedControls":["arn:arc:control/0000000000000002"],"RuleConfig":{"Type":"OR","Inverted":true},"WaitPeriodMs":0}}
assert 0 0 0 a-off !OR 0 1
batch 0 0 0 1=On,2=On -
batch 0 0 0 1=On,2=On 2
batch 0 0 0 1=On,2=On 1,2
call 0 0 0 ListRoutingControls
----
slot 0 token 1 200 {"ControlPanel":{"ControlPanelArn":"arn:arc:panel/0000000000000002","Name":"ops"}}
slot 1 token 2 200 {"RoutingControl":{"ControlPanelArn":"arn:arc:panel/0000000000000001","Name":"a","RoutingControlArn":"arn:arc:control/0000000000000001"}}
slot 2 token 3 200 {"RoutingControl":{"ControlPanelArn":"arn:arc:panel/0000000000000002","Name":"x","RoutingControlArn":"arn:arc:control/0000000000000002"}}
slot 3 token 4 200 {"SafetyRuleArn":"arn:arc:rule/0000000000000001"}
slot 4 token 5 200 {"SafetyRuleArn":"arn:arc:rule/0000000000000002"}
slot 5 token 6 409 {"Reason":"Forbidden","Rules":[{"Cause":"AssertFalse","SafetyRuleArn":"arn:arc:rule/0000000000000001"},{"Cause":"AssertFalse","SafetyRuleArn":"arn:arc:rule/0000000000000002"}],"__type":"ConflictException"}
slot 6 token 7 409 {"Reason":"Forbidden","Rules":[{"Cause":"AssertFalse","SafetyRuleArn":"arn:arc:rule/0000000000000001"}],"__type":"ConflictException"}
slot 7 token 8 200 {}
slot 8 token 9 200 {"RoutingControls":[{"ControlPanelArn":"arn:arc:panel/0000000000000001","RoutingControlArn":"arn:arc:control/0000000000000001","RoutingControlName":"a","RoutingControlState":"On"},{"ControlPanelArn":"arn:arc:panel/0000000000000002","RoutingControlArn":"arn:arc:control/0000000000000002","RoutingControlName":"x","RoutingControlState":"On"}]}

== a rule counts each control of a batch
new 0 0 0 a
new 0 0 0 b
new 0 0 0 c
new 0 0 0 d
assert 0 0 0 two ATLEAST:2 0 1,2,3,4
batch 0 0 0 1=On,2=On,3=On -
batch 0 0 0 1=Off,2=Off,4=On -
batch 0 0 0 3=Off,4=Off,1=On -
batch 0 0 0 3=Off,4=Off,1=On,2=On -
----
slot 0 token 1 200 {"RoutingControl":{"ControlPanelArn":"arn:arc:panel/0000000000000001","Name":"a","RoutingControlArn":"arn:arc:control/0000000000000001"}}
slot 1 token 2 200 {"RoutingControl":{"ControlPanelArn":"arn:arc:panel/0000000000000001","Name":"b","RoutingControlArn":"arn:arc:control/0000000000000002"}}
slot 2 token 3 200 {"RoutingControl":{"ControlPanelArn":"arn:arc:panel/0000000000000001","Name":"c","RoutingControlArn":"arn:arc:control/0000000000000003"}}
slot 3 token 4 200 {"RoutingControl":{"ControlPanelArn":"arn:arc:panel/0000000000000001","Name":"d","RoutingControlArn":"arn:arc:control/0000000000000004"}}
slot 4 token 5 200 {"SafetyRuleArn":"arn:arc:rule/0000000000000001"}
slot 5 token 6 200 {}
slot 6 token 7 200 {}
slot 7 token 8 409 {"Reason":"Forbidden","Rules":[{"Cause":"AssertFalse","SafetyRuleArn":"arn:arc:rule/0000000000000001"}],"__type":"ConflictException"}
slot 8 token 9 200 {}

== a batch of 16 entries and 16 overrides
new 0 0 0 c1
loop n 1 15
new 0 0 0 c{n+1}
endloop
assert 0 0 0 none !OR 0 1,2,3,4,5,6,7,8,9,10,11,12,13,14,15,16
batch 0 0 0 1=On,2=On,3=On,4=On,5=On,6=On,7=On,8=On,9=On,10=On,11=On,12=On,13=On,14=On,15=On,16=On -
batch 0 0 0 1=On,2=On,3=On,4=On,5=On,6=On,7=On,8=On,9=On,10=On,11=On,12=On,13=On,14=On,15=On,16=On 1,1,1,1,1,1,1,1,1,1,1,1,1,1,1,1
get 0 0 0 16
----
slot 0 token 1 200 {"RoutingControl":{"ControlPanelArn":"arn:arc:panel/0000000000000001","Name":"c1","RoutingControlArn":"arn:arc:control/0000000000000001"}}
loop n 1 15
slot {n} token {n+1} 200 {"RoutingControl":{"ControlPanelArn":"arn:arc:panel/0000000000000001","Name":"c{n+1}","RoutingControlArn":"arn:arc:control/{n+1:016x}"}}
endloop
slot 16 token 17 200 {"SafetyRuleArn":"arn:arc:rule/0000000000000001"}
slot 17 token 18 409 {"Reason":"Forbidden","Rules":[{"Cause":"AssertFalse","SafetyRuleArn":"arn:arc:rule/0000000000000001"}],"__type":"ConflictException"}
slot 18 token 19 200 {}
slot 19 token 20 200 {"RoutingControlArn":"arn:arc:control/0000000000000010","RoutingControlName":"c16","RoutingControlState":"On"}

== a batch with 17 entries is no batch
batch 0 0 0 1=On,2=On,3=On,4=On,5=On,6=On,7=On,8=On,9=On,10=On,11=On,12=On,13=On,14=On,15=On,16=On,17=On -
---- status 6
script line 1: TooManyEntries

== a batch with 17 overrides is no batch
batch 0 0 0 1=On 1,1,1,1,1,1,1,1,1,1,1,1,1,1,1,1,1
---- status 6
script line 1: TooManyEntries

== a batch that sets a control twice alike is no batch
batch 0 0 0 1=On,2=On,1=On -
---- status 6
script line 1: DoubledEntry

== a batch that sets a control On and Off is no batch
batch 0 0 0 1=On,1=Off -
---- status 6
script line 1: DoubledEntry

== a batch is called by its operation
new 0 0 0 a
new 0 0 0 b
assert 0 0 0 b-off !OR 0 2
call 0 0 0 UpdateRoutingControlStates {"UpdateRoutingControlStateEntries":[{"RoutingControlArn":"arn:arc:control/0000000000000001","RoutingControlState":"On"},{"RoutingControlArn":"arn:arc:control/0000000000000002","RoutingControlState":"On"}]}
call 0 0 0 UpdateRoutingControlStates {"UpdateRoutingControlStateEntries":[{"RoutingControlArn":"arn:arc:control/0000000000000001","RoutingControlState":"On"},{"RoutingControlArn":"arn:arc:control/0000000000000009","RoutingControlState":"On"}]}
call 0 0 0 UpdateRoutingControlStates {"UpdateRoutingControlStateEntries":[{"RoutingControlArn":"arn:arc:control/0000000000000001","RoutingControlState":"On"},{"RoutingControlArn":"arn:arc:control/0000000000000002","RoutingControlState":"On"}],"SafetyRulesToOverride":["arn:arc:rule/0000000000000001"]}
call 0 0 0 ListRoutingControls
----
slot 0 token 1 200 {"RoutingControl":{"ControlPanelArn":"arn:arc:panel/0000000000000001","Name":"a","RoutingControlArn":"arn:arc:control/0000000000000001"}}
slot 1 token 2 200 {"RoutingControl":{"ControlPanelArn":"arn:arc:panel/0000000000000001","Name":"b","RoutingControlArn":"arn:arc:control/0000000000000002"}}
slot 2 token 3 200 {"SafetyRuleArn":"arn:arc:rule/0000000000000001"}
slot 3 token 4 409 {"Reason":"Forbidden","Rules":[{"Cause":"AssertFalse","SafetyRuleArn":"arn:arc:rule/0000000000000001"}],"__type":"ConflictException"}
slot 4 token 5 404 {"Reason":"NotFound","Resource":"arn:arc:control/0000000000000009","__type":"ResourceNotFoundException"}
slot 5 token 6 200 {}
slot 6 token 7 200 {"RoutingControls":[{"ControlPanelArn":"arn:arc:panel/0000000000000001","RoutingControlArn":"arn:arc:control/0000000000000001","RoutingControlName":"a","RoutingControlState":"On"},{"ControlPanelArn":"arn:arc:panel/0000000000000001","RoutingControlArn":"arn:arc:control/0000000000000002","RoutingControlName":"b","RoutingControlState":"On"}]}

== one control is set by its operation
new 0 0 0 a
call 0 0 0 UpdateRoutingControlState {"RoutingControlArn":"arn:arc:control/0000000000000001","RoutingControlState":"On"}
call 0 0 0 UpdateRoutingControlState {"RoutingControlArn":"arn:arc:control/0000000000000001","RoutingControlState":"On"}
call 0 0 0 UpdateRoutingControlState {"RoutingControlArn":"arn:arc:control/0000000000000002","RoutingControlState":"On"}
get 0 0 0 1
----
slot 0 token 1 200 {"RoutingControl":{"ControlPanelArn":"arn:arc:panel/0000000000000001","Name":"a","RoutingControlArn":"arn:arc:control/0000000000000001"}}
slot 1 token 2 200 {}
slot 2 token 3 200 {}
slot 3 token 4 404 {"Reason":"NotFound","Resource":"arn:arc:control/0000000000000002","__type":"ResourceNotFoundException"}
slot 4 token 5 200 {"RoutingControlArn":"arn:arc:control/0000000000000001","RoutingControlName":"a","RoutingControlState":"On"}
