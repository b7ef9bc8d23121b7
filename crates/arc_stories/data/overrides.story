# Overrides: a change that has to be now, past the rules that it names.

== an override bypasses an assertion
new 0 0 0 a
assert 0 0 0 pinned !OR 0 1
set 0 0 0 1 On
batch 0 0 0 1=On 1
get 0 0 0 1
----
slot 0 token 1 200 {"RoutingControl":{"ControlPanelArn":"arn:arc:panel/0000000000000001","Name":"a","RoutingControlArn":"arn:arc:control/0000000000000001"}}
slot 1 token 2 200 {"SafetyRuleArn":"arn:arc:rule/0000000000000001"}
slot 2 token 3 409 {"Reason":"Forbidden","Rules":[{"Cause":"AssertFalse","SafetyRuleArn":"arn:arc:rule/0000000000000001"}],"__type":"ConflictException"}
slot 3 token 4 200 {}
slot 4 token 5 200 {"RoutingControlArn":"arn:arc:control/0000000000000001","RoutingControlName":"a","RoutingControlState":"On"}

== an override bypasses a closed gate
new 0 0 0 g
new 0 0 0 t
gate 0 0 0 guard AND 0 1 2
set 0 0 0 2 On
batch 0 0 0 2=On 1
get 0 0 0 2
----
slot 0 token 1 200 {"RoutingControl":{"ControlPanelArn":"arn:arc:panel/0000000000000001","Name":"g","RoutingControlArn":"arn:arc:control/0000000000000001"}}
slot 1 token 2 200 {"RoutingControl":{"ControlPanelArn":"arn:arc:panel/0000000000000001","Name":"t","RoutingControlArn":"arn:arc:control/0000000000000002"}}
slot 2 token 3 200 {"SafetyRuleArn":"arn:arc:rule/0000000000000001"}
slot 3 token 4 409 {"Reason":"Forbidden","Rules":[{"Cause":"GateClosed","SafetyRuleArn":"arn:arc:rule/0000000000000001"}],"__type":"ConflictException"}
slot 4 token 5 200 {}
slot 5 token 6 200 {"RoutingControlArn":"arn:arc:control/0000000000000002","RoutingControlName":"t","RoutingControlState":"On"}

== an override bypasses a wait
new 0 0 0 a
new 0 0 0 b
assert 0 0 0 w OR 100 1,2
set 0 0 0 1 On
set 0 1 0 2 On
batch 0 1 0 2=On 1
----
slot 0 token 1 200 {"RoutingControl":{"ControlPanelArn":"arn:arc:panel/0000000000000001","Name":"a","RoutingControlArn":"arn:arc:control/0000000000000001"}}
slot 1 token 2 200 {"RoutingControl":{"ControlPanelArn":"arn:arc:panel/0000000000000001","Name":"b","RoutingControlArn":"arn:arc:control/0000000000000002"}}
slot 2 token 3 200 {"SafetyRuleArn":"arn:arc:rule/0000000000000001"}
slot 3 token 4 200 {}
slot 4 token 5 409 {"Reason":"Forbidden","Rules":[{"Cause":"Waiting","SafetyRuleArn":"arn:arc:rule/0000000000000001","Until":100}],"__type":"ConflictException"}
slot 5 token 6 200 {}

== an override bypasses value and wait of a rule at once
new 0 0 0 a
assert 0 0 0 w OR 100 1
set 0 0 0 1 On
batch 0 1 0 1=Off 1
----
slot 0 token 1 200 {"RoutingControl":{"ControlPanelArn":"arn:arc:panel/0000000000000001","Name":"a","RoutingControlArn":"arn:arc:control/0000000000000001"}}
slot 1 token 2 200 {"SafetyRuleArn":"arn:arc:rule/0000000000000001"}
slot 2 token 3 200 {}
slot 3 token 4 200 {}

== an override bypasses the rule that it names, and no other of the panel
new 0 0 0 a
assert 0 0 0 first !OR 0 1
assert 0 0 0 second !OR 0 1
assert 0 0 0 third !OR 0 1
set 0 0 0 1 On
batch 0 0 0 1=On 2
batch 0 0 0 1=On 3,1
batch 0 0 0 1=On 3,1,2
----
slot 0 token 1 200 {"RoutingControl":{"ControlPanelArn":"arn:arc:panel/0000000000000001","Name":"a","RoutingControlArn":"arn:arc:control/0000000000000001"}}
slot 1 token 2 200 {"SafetyRuleArn":"arn:arc:rule/0000000000000001"}
slot 2 token 3 200 {"SafetyRuleArn":"arn:arc:rule/0000000000000002"}
slot 3 token 4 200 {"SafetyRuleArn":"arn:arc:rule/0000000000000003"}
slot 4 token 5 409 {"Reason":"Forbidden","Rules":[{"Cause":"AssertFalse","SafetyRuleArn":"arn:arc:rule/0000000000000001"},{"Cause":"AssertFalse","SafetyRuleArn":"arn:arc:rule/0000000000000002"},{"Cause":"AssertFalse","SafetyRuleArn":"arn:arc:rule/0000000000000003"}],"__type":"ConflictException"}
slot 5 token 6 409 {"Reason":"Forbidden","Rules":[{"Cause":"AssertFalse","SafetyRuleArn":"arn:arc:rule/0000000000000001"},{"Cause":"AssertFalse","SafetyRuleArn":"arn:arc:rule/0000000000000003"}],"__type":"ConflictException"}
slot 6 token 7 409 {"Reason":"Forbidden","Rules":[{"Cause":"AssertFalse","SafetyRuleArn":"arn:arc:rule/0000000000000002"}],"__type":"ConflictException"}
slot 7 token 8 200 {}

== an override holds for its batch alone
new 0 0 0 a
assert 0 0 0 pinned !OR 0 1
batch 0 0 0 1=On 1
set 0 0 0 1 Off
set 0 0 0 1 On
----
slot 0 token 1 200 {"RoutingControl":{"ControlPanelArn":"arn:arc:panel/0000000000000001","Name":"a","RoutingControlArn":"arn:arc:control/0000000000000001"}}
slot 1 token 2 200 {"SafetyRuleArn":"arn:arc:rule/0000000000000001"}
slot 2 token 3 200 {}
slot 3 token 4 200 {}
slot 4 token 5 409 {"Reason":"Forbidden","Rules":[{"Cause":"AssertFalse","SafetyRuleArn":"arn:arc:rule/0000000000000001"}],"__type":"ConflictException"}

== what went past an assertion counts in the next change
new 0 0 0 a
new 0 0 0 b
new 0 0 0 c
batch 0 0 0 1=On,2=On -
assert 0 0 0 two ATLEAST:2 0 1,2,3
batch 0 0 0 1=Off 1
# One is On. A swap keeps it one; two go On, and the rule is true again.
batch 0 0 0 2=Off,3=On -
set 0 0 0 3 On
set 0 0 0 1 On
set 0 0 0 2 Off
set 0 0 0 3 Off
----
slot 0 token 1 200 {"RoutingControl":{"ControlPanelArn":"arn:arc:panel/0000000000000001","Name":"a","RoutingControlArn":"arn:arc:control/0000000000000001"}}
slot 1 token 2 200 {"RoutingControl":{"ControlPanelArn":"arn:arc:panel/0000000000000001","Name":"b","RoutingControlArn":"arn:arc:control/0000000000000002"}}
slot 2 token 3 200 {"RoutingControl":{"ControlPanelArn":"arn:arc:panel/0000000000000001","Name":"c","RoutingControlArn":"arn:arc:control/0000000000000003"}}
slot 3 token 4 200 {}
slot 4 token 5 200 {"SafetyRuleArn":"arn:arc:rule/0000000000000001"}
slot 5 token 6 200 {}
slot 6 token 7 409 {"Reason":"Forbidden","Rules":[{"Cause":"AssertFalse","SafetyRuleArn":"arn:arc:rule/0000000000000001"}],"__type":"ConflictException"}
slot 7 token 8 200 {}
slot 8 token 9 200 {}
slot 9 token 10 200 {}
slot 10 token 11 409 {"Reason":"Forbidden","Rules":[{"Cause":"AssertFalse","SafetyRuleArn":"arn:arc:rule/0000000000000001"}],"__type":"ConflictException"}

== what went past a closed gate may open another gate
new 0 0 0 a
new 0 0 0 b
new 0 0 0 c
gate 0 0 0 b-behind-a AND 0 1 2
gate 0 0 0 c-behind-b AND 0 2 3
batch 0 0 0 2=On 1
set 0 0 0 3 On
----
slot 0 token 1 200 {"RoutingControl":{"ControlPanelArn":"arn:arc:panel/0000000000000001","Name":"a","RoutingControlArn":"arn:arc:control/0000000000000001"}}
slot 1 token 2 200 {"RoutingControl":{"ControlPanelArn":"arn:arc:panel/0000000000000001","Name":"b","RoutingControlArn":"arn:arc:control/0000000000000002"}}
slot 2 token 3 200 {"RoutingControl":{"ControlPanelArn":"arn:arc:panel/0000000000000001","Name":"c","RoutingControlArn":"arn:arc:control/0000000000000003"}}
slot 3 token 4 200 {"SafetyRuleArn":"arn:arc:rule/0000000000000001"}
slot 4 token 5 200 {"SafetyRuleArn":"arn:arc:rule/0000000000000002"}
slot 5 token 6 200 {}
slot 6 token 7 200 {}

== an override of a rule that isn't met does nothing
new 0 0 0 a
new 0 0 0 b
assert 0 0 0 b-off !OR 0 2
batch 0 0 0 1=On 1
set 0 0 0 2 On
----
slot 0 token 1 200 {"RoutingControl":{"ControlPanelArn":"arn:arc:panel/0000000000000001","Name":"a","RoutingControlArn":"arn:arc:control/0000000000000001"}}
slot 1 token 2 200 {"RoutingControl":{"ControlPanelArn":"arn:arc:panel/0000000000000001","Name":"b","RoutingControlArn":"arn:arc:control/0000000000000002"}}
slot 2 token 3 200 {"SafetyRuleArn":"arn:arc:rule/0000000000000001"}
slot 3 token 4 200 {}
slot 4 token 5 409 {"Reason":"Forbidden","Rules":[{"Cause":"AssertFalse","SafetyRuleArn":"arn:arc:rule/0000000000000001"}],"__type":"ConflictException"}

== an override may name a rule of another panel
call 0 0 0 CreateControlPanel {"ControlPanelName":"ops"}
new 0 0 0 a
call 0 0 0 CreateRoutingControl {"RoutingControlName":"x","ControlPanelArn":"arn:arc:panel/0000000000000002"}
call 0 0 0 CreateSafetyRule {"AssertionRule":{"Name":"pinned","ControlPanelArn":"arn:arc:panel/0000000000000002","AssertedControls":["arn:arc:control/0000000000000002"],"RuleConfig":{"Type":"OR","Inverted":true},"WaitPeriodMs":0}}
assert 0 0 0 pinned !OR 0 1
batch 0 0 0 1=On 1
batch 0 0 0 1=On,2=On 1
batch 0 0 0 1=On,2=On 1,2
----
slot 0 token 1 200 {"ControlPanel":{"ControlPanelArn":"arn:arc:panel/0000000000000002","Name":"ops"}}
slot 1 token 2 200 {"RoutingControl":{"ControlPanelArn":"arn:arc:panel/0000000000000001","Name":"a","RoutingControlArn":"arn:arc:control/0000000000000001"}}
slot 2 token 3 200 {"RoutingControl":{"ControlPanelArn":"arn:arc:panel/0000000000000002","Name":"x","RoutingControlArn":"arn:arc:control/0000000000000002"}}
slot 3 token 4 200 {"SafetyRuleArn":"arn:arc:rule/0000000000000001"}
slot 4 token 5 200 {"SafetyRuleArn":"arn:arc:rule/0000000000000002"}
slot 5 token 6 409 {"Reason":"Forbidden","Rules":[{"Cause":"AssertFalse","SafetyRuleArn":"arn:arc:rule/0000000000000002"}],"__type":"ConflictException"}
slot 6 token 7 409 {"Reason":"Forbidden","Rules":[{"Cause":"AssertFalse","SafetyRuleArn":"arn:arc:rule/0000000000000002"}],"__type":"ConflictException"}
slot 7 token 8 200 {}

== an override may stand twice
new 0 0 0 a
assert 0 0 0 pinned !OR 0 1
batch 0 0 0 1=On 1,1
----
slot 0 token 1 200 {"RoutingControl":{"ControlPanelArn":"arn:arc:panel/0000000000000001","Name":"a","RoutingControlArn":"arn:arc:control/0000000000000001"}}
slot 1 token 2 200 {"SafetyRuleArn":"arn:arc:rule/0000000000000001"}
slot 2 token 3 200 {}

== an override of a rule that isn't there is refused, and sets nothing
new 0 0 0 a
batch 0 0 0 1=On 1
get 0 0 0 1
----
slot 0 token 1 200 {"RoutingControl":{"ControlPanelArn":"arn:arc:panel/0000000000000001","Name":"a","RoutingControlArn":"arn:arc:control/0000000000000001"}}
slot 1 token 2 404 {"Reason":"NotFound","Resource":"arn:arc:rule/0000000000000001","__type":"ResourceNotFoundException"}
slot 2 token 3 200 {"RoutingControlArn":"arn:arc:control/0000000000000001","RoutingControlName":"a","RoutingControlState":"Off"}

== the first unknown override is named
new 0 0 0 a
assert 0 0 0 r OR 0 1
batch 0 0 0 1=On 1,9,8
----
slot 0 token 1 200 {"RoutingControl":{"ControlPanelArn":"arn:arc:panel/0000000000000001","Name":"a","RoutingControlArn":"arn:arc:control/0000000000000001"}}
slot 1 token 2 200 {"SafetyRuleArn":"arn:arc:rule/0000000000000001"}
slot 2 token 3 404 {"Reason":"NotFound","Resource":"arn:arc:rule/0000000000000009","__type":"ResourceNotFoundException"}

== an unknown override is refused also where nothing changes
new 0 0 0 a
batch 0 0 0 1=Off 7
----
slot 0 token 1 200 {"RoutingControl":{"ControlPanelArn":"arn:arc:panel/0000000000000001","Name":"a","RoutingControlArn":"arn:arc:control/0000000000000001"}}
slot 1 token 2 404 {"Reason":"NotFound","Resource":"arn:arc:rule/0000000000000007","__type":"ResourceNotFoundException"}

== an unknown override is told before what the rules forbid
new 0 0 0 a
assert 0 0 0 pinned !OR 0 1
batch 0 0 0 1=On 1,2
batch 0 0 0 1=On 2
set 0 0 0 1 On
----
slot 0 token 1 200 {"RoutingControl":{"ControlPanelArn":"arn:arc:panel/0000000000000001","Name":"a","RoutingControlArn":"arn:arc:control/0000000000000001"}}
slot 1 token 2 200 {"SafetyRuleArn":"arn:arc:rule/0000000000000001"}
slot 2 token 3 404 {"Reason":"NotFound","Resource":"arn:arc:rule/0000000000000002","__type":"ResourceNotFoundException"}
slot 3 token 4 404 {"Reason":"NotFound","Resource":"arn:arc:rule/0000000000000002","__type":"ResourceNotFoundException"}
slot 4 token 5 409 {"Reason":"Forbidden","Rules":[{"Cause":"AssertFalse","SafetyRuleArn":"arn:arc:rule/0000000000000001"}],"__type":"ConflictException"}

== a deleted rule can't be overridden
new 0 0 0 a
assert 0 0 0 r OR 0 1
call 0 0 0 DeleteSafetyRule {"SafetyRuleArn":"arn:arc:rule/0000000000000001"}
batch 0 0 0 1=On 1
----
slot 0 token 1 200 {"RoutingControl":{"ControlPanelArn":"arn:arc:panel/0000000000000001","Name":"a","RoutingControlArn":"arn:arc:control/0000000000000001"}}
slot 1 token 2 200 {"SafetyRuleArn":"arn:arc:rule/0000000000000001"}
slot 2 token 3 200 {}
slot 3 token 4 404 {"Reason":"NotFound","Resource":"arn:arc:rule/0000000000000001","__type":"ResourceNotFoundException"}

== a change of one control takes overrides too
new 0 0 0 a
assert 0 0 0 pinned !OR 0 1
call 0 0 0 UpdateRoutingControlState {"RoutingControlArn":"arn:arc:control/0000000000000001","RoutingControlState":"On"}
call 0 0 0 UpdateRoutingControlState {"RoutingControlArn":"arn:arc:control/0000000000000001","RoutingControlState":"On","SafetyRulesToOverride":["arn:arc:rule/0000000000000009"]}
call 0 0 0 UpdateRoutingControlState {"RoutingControlArn":"arn:arc:control/0000000000000001","RoutingControlState":"On","SafetyRulesToOverride":["arn:arc:rule/0000000000000001"]}
get 0 0 0 1
----
slot 0 token 1 200 {"RoutingControl":{"ControlPanelArn":"arn:arc:panel/0000000000000001","Name":"a","RoutingControlArn":"arn:arc:control/0000000000000001"}}
slot 1 token 2 200 {"SafetyRuleArn":"arn:arc:rule/0000000000000001"}
slot 2 token 3 409 {"Reason":"Forbidden","Rules":[{"Cause":"AssertFalse","SafetyRuleArn":"arn:arc:rule/0000000000000001"}],"__type":"ConflictException"}
slot 3 token 4 404 {"Reason":"NotFound","Resource":"arn:arc:rule/0000000000000009","__type":"ResourceNotFoundException"}
slot 4 token 5 200 {}
slot 5 token 6 200 {"RoutingControlArn":"arn:arc:control/0000000000000001","RoutingControlName":"a","RoutingControlState":"On"}

== after a hundred changes past an override a rule still counts right
new 0 0 0 a
new 0 0 0 b
batch 0 0 0 1=On,2=On -
assert 0 0 0 both AND 0 1,2
loop n 0 99
batch 0 0 0 1=Off 1
set 0 0 0 1 On
endloop
set 0 0 0 2 Off
batch 0 0 0 1=Off,2=Off 1
set 0 0 0 1 On
batch 0 0 0 1=On,2=On -
----
slot 0 token 1 200 {"RoutingControl":{"ControlPanelArn":"arn:arc:panel/0000000000000001","Name":"a","RoutingControlArn":"arn:arc:control/0000000000000001"}}
slot 1 token 2 200 {"RoutingControl":{"ControlPanelArn":"arn:arc:panel/0000000000000001","Name":"b","RoutingControlArn":"arn:arc:control/0000000000000002"}}
slot 2 token 3 200 {}
slot 3 token 4 200 {"SafetyRuleArn":"arn:arc:rule/0000000000000001"}
loop n 0 99
slot {2n+4} token {2n+5} 200 {}
slot {2n+5} token {2n+6} 200 {}
endloop
slot 204 token 205 409 {"Reason":"Forbidden","Rules":[{"Cause":"AssertFalse","SafetyRuleArn":"arn:arc:rule/0000000000000001"}],"__type":"ConflictException"}
slot 205 token 206 200 {}
slot 206 token 207 409 {"Reason":"Forbidden","Rules":[{"Cause":"AssertFalse","SafetyRuleArn":"arn:arc:rule/0000000000000001"}],"__type":"ConflictException"}
slot 207 token 208 200 {}
