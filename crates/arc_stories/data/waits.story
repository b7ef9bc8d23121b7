# Waits: a rule that lets the controls that it watches change only so often.

== a wait is over at its very millisecond
new 0 0 0 g
new 0 0 0 t
set 0 1000 0 1 On
gate 0 1000 0 w AND 5000 1 2
set 0 10000 0 2 On
set 0 14999 0 2 Off
# List time stays where it is.
set 0 9000 0 2 Off
set 0 15000 0 2 Off
----
slot 0 token 1 200 {"RoutingControl":{"ControlPanelArn":"arn:arc:panel/0000000000000001","Name":"g","RoutingControlArn":"arn:arc:control/0000000000000001"}}
slot 1 token 2 200 {"RoutingControl":{"ControlPanelArn":"arn:arc:panel/0000000000000001","Name":"t","RoutingControlArn":"arn:arc:control/0000000000000002"}}
slot 2 token 3 200 {}
slot 3 token 4 200 {"SafetyRuleArn":"arn:arc:rule/0000000000000001"}
slot 4 token 5 200 {}
slot 5 token 6 409 {"Reason":"Forbidden","Rules":[{"Cause":"Waiting","SafetyRuleArn":"arn:arc:rule/0000000000000001","Until":15000}],"__type":"ConflictException"}
slot 6 token 7 409 {"Reason":"Forbidden","Rules":[{"Cause":"Waiting","SafetyRuleArn":"arn:arc:rule/0000000000000001","Until":15000}],"__type":"ConflictException"}
slot 7 token 8 200 {}

== a refused change doesn't prolong the wait
new 0 0 0 g
new 0 0 0 t
gate 0 0 0 w AND 5000 1 2
set 0 0 0 1 On
set 0 10000 0 2 On
set 0 14999 0 2 Off
set 0 14999 0 2 Off
get 0 14999 0 2
set 0 15000 0 2 Off
get 0 15000 0 2
----
slot 0 token 1 200 {"RoutingControl":{"ControlPanelArn":"arn:arc:panel/0000000000000001","Name":"g","RoutingControlArn":"arn:arc:control/0000000000000001"}}
slot 1 token 2 200 {"RoutingControl":{"ControlPanelArn":"arn:arc:panel/0000000000000001","Name":"t","RoutingControlArn":"arn:arc:control/0000000000000002"}}
slot 2 token 3 200 {"SafetyRuleArn":"arn:arc:rule/0000000000000001"}
slot 3 token 4 200 {}
slot 4 token 5 200 {}
slot 5 token 6 409 {"Reason":"Forbidden","Rules":[{"Cause":"Waiting","SafetyRuleArn":"arn:arc:rule/0000000000000001","Until":15000}],"__type":"ConflictException"}
slot 6 token 7 409 {"Reason":"Forbidden","Rules":[{"Cause":"Waiting","SafetyRuleArn":"arn:arc:rule/0000000000000001","Until":15000}],"__type":"ConflictException"}
slot 7 token 8 200 {"RoutingControlArn":"arn:arc:control/0000000000000002","RoutingControlName":"t","RoutingControlState":"On"}
slot 8 token 9 200 {}
slot 9 token 10 200 {"RoutingControlArn":"arn:arc:control/0000000000000002","RoutingControlName":"t","RoutingControlState":"Off"}

== a rule waits after changes since it was made, and after no other
new 0 0 0 a
new 0 0 0 b
batch 0 1000 0 1=On,2=On -
assert 0 1000 0 w OR 5000 1,2
set 0 1001 0 1 Off
set 0 6000 0 1 On
set 0 6001 0 1 On
----
slot 0 token 1 200 {"RoutingControl":{"ControlPanelArn":"arn:arc:panel/0000000000000001","Name":"a","RoutingControlArn":"arn:arc:control/0000000000000001"}}
slot 1 token 2 200 {"RoutingControl":{"ControlPanelArn":"arn:arc:panel/0000000000000001","Name":"b","RoutingControlArn":"arn:arc:control/0000000000000002"}}
slot 2 token 3 200 {}
slot 3 token 4 200 {"SafetyRuleArn":"arn:arc:rule/0000000000000001"}
slot 4 token 5 200 {}
slot 5 token 6 409 {"Reason":"Forbidden","Rules":[{"Cause":"Waiting","SafetyRuleArn":"arn:arc:rule/0000000000000001","Until":6001}],"__type":"ConflictException"}
slot 6 token 7 200 {}

== a rule whose controls never changed doesn't wait
new 0 0 0 a
assert 0 0 0 w OR 604800000 1
set 0 0 0 1 On
----
slot 0 token 1 200 {"RoutingControl":{"ControlPanelArn":"arn:arc:panel/0000000000000001","Name":"a","RoutingControlArn":"arn:arc:control/0000000000000001"}}
slot 1 token 2 200 {"SafetyRuleArn":"arn:arc:rule/0000000000000001"}
slot 2 token 3 200 {}

== a change of one control makes all that the rule watches wait
new 0 0 0 a
new 0 0 0 b
new 0 0 0 c
assert 0 0 0 w OR 100 1,2
set 0 50 0 1 On
set 0 60 0 2 On
set 0 60 0 3 On
set 0 150 0 2 On
----
slot 0 token 1 200 {"RoutingControl":{"ControlPanelArn":"arn:arc:panel/0000000000000001","Name":"a","RoutingControlArn":"arn:arc:control/0000000000000001"}}
slot 1 token 2 200 {"RoutingControl":{"ControlPanelArn":"arn:arc:panel/0000000000000001","Name":"b","RoutingControlArn":"arn:arc:control/0000000000000002"}}
slot 2 token 3 200 {"RoutingControl":{"ControlPanelArn":"arn:arc:panel/0000000000000001","Name":"c","RoutingControlArn":"arn:arc:control/0000000000000003"}}
slot 3 token 4 200 {"SafetyRuleArn":"arn:arc:rule/0000000000000001"}
slot 4 token 5 200 {}
slot 5 token 6 409 {"Reason":"Forbidden","Rules":[{"Cause":"Waiting","SafetyRuleArn":"arn:arc:rule/0000000000000001","Until":150}],"__type":"ConflictException"}
slot 6 token 7 200 {}
slot 7 token 8 200 {}

== a wait counts from the last of several changes
new 0 0 0 a
new 0 0 0 b
assert 0 0 0 w OR 100 1,2
set 0 50 0 1 On
set 0 150 0 2 On
set 0 249 0 1 Off
set 0 250 0 1 Off
----
slot 0 token 1 200 {"RoutingControl":{"ControlPanelArn":"arn:arc:panel/0000000000000001","Name":"a","RoutingControlArn":"arn:arc:control/0000000000000001"}}
slot 1 token 2 200 {"RoutingControl":{"ControlPanelArn":"arn:arc:panel/0000000000000001","Name":"b","RoutingControlArn":"arn:arc:control/0000000000000002"}}
slot 2 token 3 200 {"SafetyRuleArn":"arn:arc:rule/0000000000000001"}
slot 3 token 4 200 {}
slot 4 token 5 200 {}
slot 5 token 6 409 {"Reason":"Forbidden","Rules":[{"Cause":"Waiting","SafetyRuleArn":"arn:arc:rule/0000000000000001","Until":250}],"__type":"ConflictException"}
slot 6 token 7 200 {}

== a change of what the rule doesn't watch begins no wait
new 0 0 0 g
new 0 0 0 t
new 0 0 0 other
gate 0 0 0 w AND 1000 1 2
set 0 10 0 1 On
set 0 10 0 3 On
set 0 10 0 2 On
# The control that gates isn't kept by the wait.
set 0 10 0 1 Off
----
slot 0 token 1 200 {"RoutingControl":{"ControlPanelArn":"arn:arc:panel/0000000000000001","Name":"g","RoutingControlArn":"arn:arc:control/0000000000000001"}}
slot 1 token 2 200 {"RoutingControl":{"ControlPanelArn":"arn:arc:panel/0000000000000001","Name":"t","RoutingControlArn":"arn:arc:control/0000000000000002"}}
slot 2 token 3 200 {"RoutingControl":{"ControlPanelArn":"arn:arc:panel/0000000000000001","Name":"other","RoutingControlArn":"arn:arc:control/0000000000000003"}}
slot 3 token 4 200 {"SafetyRuleArn":"arn:arc:rule/0000000000000001"}
slot 4 token 5 200 {}
slot 5 token 6 200 {}
slot 6 token 7 200 {}
slot 7 token 8 200 {}

== a refused change begins no wait
new 0 0 0 a
new 0 0 0 b
assert 0 0 0 w OR 100 1,2
assert 0 0 0 not-b !AND 0 2
batch 0 10 0 1=On,2=On -
set 0 20 0 1 On
----
slot 0 token 1 200 {"RoutingControl":{"ControlPanelArn":"arn:arc:panel/0000000000000001","Name":"a","RoutingControlArn":"arn:arc:control/0000000000000001"}}
slot 1 token 2 200 {"RoutingControl":{"ControlPanelArn":"arn:arc:panel/0000000000000001","Name":"b","RoutingControlArn":"arn:arc:control/0000000000000002"}}
slot 2 token 3 200 {"SafetyRuleArn":"arn:arc:rule/0000000000000001"}
slot 3 token 4 200 {"SafetyRuleArn":"arn:arc:rule/0000000000000002"}
slot 4 token 5 409 {"Reason":"Forbidden","Rules":[{"Cause":"AssertFalse","SafetyRuleArn":"arn:arc:rule/0000000000000002"}],"__type":"ConflictException"}
slot 5 token 6 200 {}

== what changes nothing begins no wait
new 0 0 0 a
new 0 0 0 b
assert 0 0 0 w OR 100 1,2
set 0 10 0 1 On
set 0 60 0 1 On
set 0 109 0 2 On
set 0 110 0 2 On
----
slot 0 token 1 200 {"RoutingControl":{"ControlPanelArn":"arn:arc:panel/0000000000000001","Name":"a","RoutingControlArn":"arn:arc:control/0000000000000001"}}
slot 1 token 2 200 {"RoutingControl":{"ControlPanelArn":"arn:arc:panel/0000000000000001","Name":"b","RoutingControlArn":"arn:arc:control/0000000000000002"}}
slot 2 token 3 200 {"SafetyRuleArn":"arn:arc:rule/0000000000000001"}
slot 3 token 4 200 {}
slot 4 token 5 200 {}
slot 5 token 6 409 {"Reason":"Forbidden","Rules":[{"Cause":"Waiting","SafetyRuleArn":"arn:arc:rule/0000000000000001","Until":110}],"__type":"ConflictException"}
slot 6 token 7 200 {}

== what changes nothing isn't kept by a wait
new 0 0 0 a
assert 0 0 0 w OR 100 1
set 0 0 0 1 On
set 0 1 0 1 On
----
slot 0 token 1 200 {"RoutingControl":{"ControlPanelArn":"arn:arc:panel/0000000000000001","Name":"a","RoutingControlArn":"arn:arc:control/0000000000000001"}}
slot 1 token 2 200 {"SafetyRuleArn":"arn:arc:rule/0000000000000001"}
slot 2 token 3 200 {}
slot 3 token 4 200 {}

== a change past an override begins a wait
new 0 0 0 g
new 0 0 0 t
gate 0 0 0 w AND 100 1 2
batch 0 50 0 2=On 1
set 0 60 0 1 On
set 0 149 0 2 Off
set 0 150 0 2 Off
----
slot 0 token 1 200 {"RoutingControl":{"ControlPanelArn":"arn:arc:panel/0000000000000001","Name":"g","RoutingControlArn":"arn:arc:control/0000000000000001"}}
slot 1 token 2 200 {"RoutingControl":{"ControlPanelArn":"arn:arc:panel/0000000000000001","Name":"t","RoutingControlArn":"arn:arc:control/0000000000000002"}}
slot 2 token 3 200 {"SafetyRuleArn":"arn:arc:rule/0000000000000001"}
slot 3 token 4 200 {}
slot 4 token 5 200 {}
slot 5 token 6 409 {"Reason":"Forbidden","Rules":[{"Cause":"Waiting","SafetyRuleArn":"arn:arc:rule/0000000000000001","Until":150}],"__type":"ConflictException"}
slot 6 token 7 200 {}

== a change past an override prolongs a wait
new 0 0 0 a
new 0 0 0 b
assert 0 0 0 w OR 100 1,2
set 0 0 0 1 On
batch 0 60 0 2=On 1
set 0 100 0 2 Off
set 0 160 0 2 Off
----
slot 0 token 1 200 {"RoutingControl":{"ControlPanelArn":"arn:arc:panel/0000000000000001","Name":"a","RoutingControlArn":"arn:arc:control/0000000000000001"}}
slot 1 token 2 200 {"RoutingControl":{"ControlPanelArn":"arn:arc:panel/0000000000000001","Name":"b","RoutingControlArn":"arn:arc:control/0000000000000002"}}
slot 2 token 3 200 {"SafetyRuleArn":"arn:arc:rule/0000000000000001"}
slot 3 token 4 200 {}
slot 4 token 5 200 {}
slot 5 token 6 409 {"Reason":"Forbidden","Rules":[{"Cause":"Waiting","SafetyRuleArn":"arn:arc:rule/0000000000000001","Until":160}],"__type":"ConflictException"}
slot 6 token 7 200 {}

== a change past an override of one rule begins the waits of all rules that watch it
new 0 0 0 a
new 0 0 0 b
set 0 0 0 2 On
assert 0 0 0 w OR 100 1,2
assert 0 0 0 v !AND 200 1
batch 0 10 0 1=On 2
set 0 20 0 1 Off
----
slot 0 token 1 200 {"RoutingControl":{"ControlPanelArn":"arn:arc:panel/0000000000000001","Name":"a","RoutingControlArn":"arn:arc:control/0000000000000001"}}
slot 1 token 2 200 {"RoutingControl":{"ControlPanelArn":"arn:arc:panel/0000000000000001","Name":"b","RoutingControlArn":"arn:arc:control/0000000000000002"}}
slot 2 token 3 200 {}
slot 3 token 4 200 {"SafetyRuleArn":"arn:arc:rule/0000000000000001"}
slot 4 token 5 200 {"SafetyRuleArn":"arn:arc:rule/0000000000000002"}
slot 5 token 6 200 {}
slot 6 token 7 409 {"Reason":"Forbidden","Rules":[{"Cause":"Waiting","SafetyRuleArn":"arn:arc:rule/0000000000000001","Until":110},{"Cause":"Waiting","SafetyRuleArn":"arn:arc:rule/0000000000000002","Until":210}],"__type":"ConflictException"}

== without a wait a control changes as often as it is told to
new 0 0 0 a
new 0 0 0 b
assert 0 0 0 one OR 0 1,2
set 0 5 0 1 On
set 0 5 0 2 On
set 0 5 0 1 Off
set 0 5 0 1 On
----
slot 0 token 1 200 {"RoutingControl":{"ControlPanelArn":"arn:arc:panel/0000000000000001","Name":"a","RoutingControlArn":"arn:arc:control/0000000000000001"}}
slot 1 token 2 200 {"RoutingControl":{"ControlPanelArn":"arn:arc:panel/0000000000000001","Name":"b","RoutingControlArn":"arn:arc:control/0000000000000002"}}
slot 2 token 3 200 {"SafetyRuleArn":"arn:arc:rule/0000000000000001"}
slot 3 token 4 200 {}
slot 4 token 5 200 {}
slot 5 token 6 200 {}
slot 6 token 7 200 {}

== a wait of one millisecond lets one change pass at a time
new 0 0 0 a
new 0 0 0 b
assert 0 0 0 one OR 1 1,2
set 0 5 0 1 On
set 0 5 0 2 On
set 0 6 0 2 On
----
slot 0 token 1 200 {"RoutingControl":{"ControlPanelArn":"arn:arc:panel/0000000000000001","Name":"a","RoutingControlArn":"arn:arc:control/0000000000000001"}}
slot 1 token 2 200 {"RoutingControl":{"ControlPanelArn":"arn:arc:panel/0000000000000001","Name":"b","RoutingControlArn":"arn:arc:control/0000000000000002"}}
slot 2 token 3 200 {"SafetyRuleArn":"arn:arc:rule/0000000000000001"}
slot 3 token 4 200 {}
slot 4 token 5 409 {"Reason":"Forbidden","Rules":[{"Cause":"Waiting","SafetyRuleArn":"arn:arc:rule/0000000000000001","Until":6}],"__type":"ConflictException"}
slot 5 token 6 200 {}

== a false assertion is told as such, and not as waiting
new 0 0 0 a
new 0 0 0 b
assert 0 0 0 w OR 100 1,2
set 0 0 0 1 On
set 0 50 0 1 Off
batch 0 50 0 1=Off,2=On -
----
slot 0 token 1 200 {"RoutingControl":{"ControlPanelArn":"arn:arc:panel/0000000000000001","Name":"a","RoutingControlArn":"arn:arc:control/0000000000000001"}}
slot 1 token 2 200 {"RoutingControl":{"ControlPanelArn":"arn:arc:panel/0000000000000001","Name":"b","RoutingControlArn":"arn:arc:control/0000000000000002"}}
slot 2 token 3 200 {"SafetyRuleArn":"arn:arc:rule/0000000000000001"}
slot 3 token 4 200 {}
slot 4 token 5 409 {"Reason":"Forbidden","Rules":[{"Cause":"AssertFalse","SafetyRuleArn":"arn:arc:rule/0000000000000001"}],"__type":"ConflictException"}
slot 5 token 6 409 {"Reason":"Forbidden","Rules":[{"Cause":"Waiting","SafetyRuleArn":"arn:arc:rule/0000000000000001","Until":100}],"__type":"ConflictException"}

== a closed gate is told as such, and not as waiting
new 0 0 0 g
new 0 0 0 t
gate 0 0 0 w AND 100 1 2
set 0 0 0 1 On
set 0 0 0 2 On
set 0 10 0 1 Off
set 0 10 0 2 Off
set 0 10 0 1 On
set 0 10 0 2 Off
----
slot 0 token 1 200 {"RoutingControl":{"ControlPanelArn":"arn:arc:panel/0000000000000001","Name":"g","RoutingControlArn":"arn:arc:control/0000000000000001"}}
slot 1 token 2 200 {"RoutingControl":{"ControlPanelArn":"arn:arc:panel/0000000000000001","Name":"t","RoutingControlArn":"arn:arc:control/0000000000000002"}}
slot 2 token 3 200 {"SafetyRuleArn":"arn:arc:rule/0000000000000001"}
slot 3 token 4 200 {}
slot 4 token 5 200 {}
slot 5 token 6 200 {}
slot 6 token 7 409 {"Reason":"Forbidden","Rules":[{"Cause":"GateClosed","SafetyRuleArn":"arn:arc:rule/0000000000000001"}],"__type":"ConflictException"}
slot 7 token 8 200 {}
slot 8 token 9 409 {"Reason":"Forbidden","Rules":[{"Cause":"Waiting","SafetyRuleArn":"arn:arc:rule/0000000000000001","Until":100}],"__type":"ConflictException"}

== two rules wait each for itself
new 0 0 0 a
new 0 0 0 b
assert 0 0 0 long OR 300 1,2
assert 0 0 0 short !AND 200 1,2
set 0 0 0 1 On
batch 0 199 0 1=Off,2=On -
batch 0 200 0 1=Off,2=On -
batch 0 300 0 1=Off,2=On -
----
slot 0 token 1 200 {"RoutingControl":{"ControlPanelArn":"arn:arc:panel/0000000000000001","Name":"a","RoutingControlArn":"arn:arc:control/0000000000000001"}}
slot 1 token 2 200 {"RoutingControl":{"ControlPanelArn":"arn:arc:panel/0000000000000001","Name":"b","RoutingControlArn":"arn:arc:control/0000000000000002"}}
slot 2 token 3 200 {"SafetyRuleArn":"arn:arc:rule/0000000000000001"}
slot 3 token 4 200 {"SafetyRuleArn":"arn:arc:rule/0000000000000002"}
slot 4 token 5 200 {}
slot 5 token 6 409 {"Reason":"Forbidden","Rules":[{"Cause":"Waiting","SafetyRuleArn":"arn:arc:rule/0000000000000001","Until":300},{"Cause":"Waiting","SafetyRuleArn":"arn:arc:rule/0000000000000002","Until":200}],"__type":"ConflictException"}
slot 6 token 7 409 {"Reason":"Forbidden","Rules":[{"Cause":"Waiting","SafetyRuleArn":"arn:arc:rule/0000000000000001","Until":300}],"__type":"ConflictException"}
slot 7 token 8 200 {}

== another wait counts from the same change
new 0 0 0 a
new 0 0 0 b
assert 0 0 0 w OR 100 1,2
set 0 1000 0 1 On
call 0 1000 0 UpdateSafetyRule {"AssertionRuleUpdate":{"SafetyRuleArn":"arn:arc:rule/0000000000000001","Name":"w","WaitPeriodMs":300}}
set 0 1100 0 2 On
call 0 1100 0 UpdateSafetyRule {"AssertionRuleUpdate":{"SafetyRuleArn":"arn:arc:rule/0000000000000001","Name":"w","WaitPeriodMs":50}}
set 0 1100 0 2 On
----
slot 0 token 1 200 {"RoutingControl":{"ControlPanelArn":"arn:arc:panel/0000000000000001","Name":"a","RoutingControlArn":"arn:arc:control/0000000000000001"}}
slot 1 token 2 200 {"RoutingControl":{"ControlPanelArn":"arn:arc:panel/0000000000000001","Name":"b","RoutingControlArn":"arn:arc:control/0000000000000002"}}
slot 2 token 3 200 {"SafetyRuleArn":"arn:arc:rule/0000000000000001"}
slot 3 token 4 200 {}
slot 4 token 5 200 {}
slot 5 token 6 409 {"Reason":"Forbidden","Rules":[{"Cause":"Waiting","SafetyRuleArn":"arn:arc:rule/0000000000000001","Until":1300}],"__type":"ConflictException"}
slot 6 token 7 200 {}
slot 7 token 8 200 {}

== a rule that had no wait knows its last change when it gets one
new 0 0 0 a
new 0 0 0 b
assert 0 0 0 w OR 0 1,2
set 0 1000 0 1 On
call 0 1500 0 UpdateSafetyRule {"AssertionRuleUpdate":{"SafetyRuleArn":"arn:arc:rule/0000000000000001","Name":"w","WaitPeriodMs":1000}}
set 0 1999 0 2 On
set 0 2000 0 2 On
----
slot 0 token 1 200 {"RoutingControl":{"ControlPanelArn":"arn:arc:panel/0000000000000001","Name":"a","RoutingControlArn":"arn:arc:control/0000000000000001"}}
slot 1 token 2 200 {"RoutingControl":{"ControlPanelArn":"arn:arc:panel/0000000000000001","Name":"b","RoutingControlArn":"arn:arc:control/0000000000000002"}}
slot 2 token 3 200 {"SafetyRuleArn":"arn:arc:rule/0000000000000001"}
slot 3 token 4 200 {}
slot 4 token 5 200 {}
slot 5 token 6 409 {"Reason":"Forbidden","Rules":[{"Cause":"Waiting","SafetyRuleArn":"arn:arc:rule/0000000000000001","Until":2000}],"__type":"ConflictException"}
slot 6 token 7 200 {}

== a rule that is made again has forgotten the changes
new 0 0 0 g
new 0 0 0 t
set 0 0 0 1 On
gate 0 0 0 w AND 1000 1 2
set 0 0 0 2 On
set 0 0 0 2 Off
call 0 0 0 DeleteSafetyRule {"SafetyRuleArn":"arn:arc:rule/0000000000000001"}
gate 0 0 0 w AND 1000 1 2
set 0 0 0 2 Off
----
slot 0 token 1 200 {"RoutingControl":{"ControlPanelArn":"arn:arc:panel/0000000000000001","Name":"g","RoutingControlArn":"arn:arc:control/0000000000000001"}}
slot 1 token 2 200 {"RoutingControl":{"ControlPanelArn":"arn:arc:panel/0000000000000001","Name":"t","RoutingControlArn":"arn:arc:control/0000000000000002"}}
slot 2 token 3 200 {}
slot 3 token 4 200 {"SafetyRuleArn":"arn:arc:rule/0000000000000001"}
slot 4 token 5 200 {}
slot 5 token 6 409 {"Reason":"Forbidden","Rules":[{"Cause":"Waiting","SafetyRuleArn":"arn:arc:rule/0000000000000001","Until":1000}],"__type":"ConflictException"}
slot 6 token 7 200 {}
slot 7 token 8 200 {"SafetyRuleArn":"arn:arc:rule/0000000000000002"}
slot 8 token 9 200 {}

== a call from before list time counts at list time
new 0 0 0 a
new 0 0 0 b
assert 0 0 0 w OR 100 1,2
get 0 5000 0 1
set 0 10 0 1 On
set 0 5099 0 2 On
set 0 5100 0 2 On
----
slot 0 token 1 200 {"RoutingControl":{"ControlPanelArn":"arn:arc:panel/0000000000000001","Name":"a","RoutingControlArn":"arn:arc:control/0000000000000001"}}
slot 1 token 2 200 {"RoutingControl":{"ControlPanelArn":"arn:arc:panel/0000000000000001","Name":"b","RoutingControlArn":"arn:arc:control/0000000000000002"}}
slot 2 token 3 200 {"SafetyRuleArn":"arn:arc:rule/0000000000000001"}
slot 3 token 4 200 {"RoutingControlArn":"arn:arc:control/0000000000000001","RoutingControlName":"a","RoutingControlState":"Off"}
slot 4 token 5 200 {}
slot 5 token 6 409 {"Reason":"Forbidden","Rules":[{"Cause":"Waiting","SafetyRuleArn":"arn:arc:rule/0000000000000001","Until":5100}],"__type":"ConflictException"}
slot 6 token 7 200 {}

== any command of a later time ends a wait, also one that is refused
new 0 0 0 a
new 0 0 0 b
assert 0 0 0 w OR 100 1,2
set 0 0 0 1 On
set 0 0 0 2 On
get 0 100 0 9
set 0 0 0 2 On
----
slot 0 token 1 200 {"RoutingControl":{"ControlPanelArn":"arn:arc:panel/0000000000000001","Name":"a","RoutingControlArn":"arn:arc:control/0000000000000001"}}
slot 1 token 2 200 {"RoutingControl":{"ControlPanelArn":"arn:arc:panel/0000000000000001","Name":"b","RoutingControlArn":"arn:arc:control/0000000000000002"}}
slot 2 token 3 200 {"SafetyRuleArn":"arn:arc:rule/0000000000000001"}
slot 3 token 4 200 {}
slot 4 token 5 409 {"Reason":"Forbidden","Rules":[{"Cause":"Waiting","SafetyRuleArn":"arn:arc:rule/0000000000000001","Until":100}],"__type":"ConflictException"}
slot 5 token 6 404 {"Reason":"NotFound","Resource":"arn:arc:control/0000000000000009","__type":"ResourceNotFoundException"}
slot 6 token 7 200 {}

== the longest wait is a week
new 0 0 0 a
new 0 0 0 b
assert 0 0 0 week OR 604800000 1,2
set 0 1 0 1 On
set 0 604800000 0 2 On
set 0 604800001 0 2 On
----
slot 0 token 1 200 {"RoutingControl":{"ControlPanelArn":"arn:arc:panel/0000000000000001","Name":"a","RoutingControlArn":"arn:arc:control/0000000000000001"}}
slot 1 token 2 200 {"RoutingControl":{"ControlPanelArn":"arn:arc:panel/0000000000000001","Name":"b","RoutingControlArn":"arn:arc:control/0000000000000002"}}
slot 2 token 3 200 {"SafetyRuleArn":"arn:arc:rule/0000000000000001"}
slot 3 token 4 200 {}
slot 4 token 5 409 {"Reason":"Forbidden","Rules":[{"Cause":"Waiting","SafetyRuleArn":"arn:arc:rule/0000000000000001","Until":604800001}],"__type":"ConflictException"}
slot 5 token 6 200 {}

== a wait that ends behind the last millisecond doesn't end
new 0 0 0 a
new 0 0 0 b
assert 0 0 0 w OR 604800000 1,2
set 0 253402300799999 0 1 On
set 0 253402300799999 0 2 On
----
slot 0 token 1 200 {"RoutingControl":{"ControlPanelArn":"arn:arc:panel/0000000000000001","Name":"a","RoutingControlArn":"arn:arc:control/0000000000000001"}}
slot 1 token 2 200 {"RoutingControl":{"ControlPanelArn":"arn:arc:panel/0000000000000001","Name":"b","RoutingControlArn":"arn:arc:control/0000000000000002"}}
slot 2 token 3 200 {"SafetyRuleArn":"arn:arc:rule/0000000000000001"}
slot 3 token 4 200 {}
slot 4 token 5 409 {"Reason":"Forbidden","Rules":[{"Cause":"Waiting","SafetyRuleArn":"arn:arc:rule/0000000000000001","Until":253402905599999}],"__type":"ConflictException"}

== a hundred changes, each at the very millisecond
new 0 0 0 open
new 0 0 0 t
set 0 0 0 1 On
gate 0 0 0 w AND 10 1 2
loop n 0 49
set 0 {20n} 0 2 On
set 0 {20n+9} 0 2 Off
set 0 {20n+10} 0 2 Off
set 0 {20n+19} 0 2 On
endloop
set 0 1000 0 2 On
----
slot 0 token 1 200 {"RoutingControl":{"ControlPanelArn":"arn:arc:panel/0000000000000001","Name":"open","RoutingControlArn":"arn:arc:control/0000000000000001"}}
slot 1 token 2 200 {"RoutingControl":{"ControlPanelArn":"arn:arc:panel/0000000000000001","Name":"t","RoutingControlArn":"arn:arc:control/0000000000000002"}}
slot 2 token 3 200 {}
slot 3 token 4 200 {"SafetyRuleArn":"arn:arc:rule/0000000000000001"}
loop n 0 49
slot {4n+4} token {4n+5} 200 {}
slot {4n+5} token {4n+6} 409 {"Reason":"Forbidden","Rules":[{"Cause":"Waiting","SafetyRuleArn":"arn:arc:rule/0000000000000001","Until":{20n+10}}],"__type":"ConflictException"}
slot {4n+6} token {4n+7} 200 {}
slot {4n+7} token {4n+8} 409 {"Reason":"Forbidden","Rules":[{"Cause":"Waiting","SafetyRuleArn":"arn:arc:rule/0000000000000001","Until":{20n+20}}],"__type":"ConflictException"}
endloop
slot 204 token 205 200 {}
