# Assertions: what a change would leave too few of, or too many.

== an assertion refuses a change that would leave too few On
new 0 0 0 a
new 0 0 0 b
assert 0 0 0 one ATLEAST:1 0 1,2
set 0 1 0 1 On
set 0 2 0 1 Off
get 0 3 0 1
----
slot 0 token 1 200 {"RoutingControl":{"ControlPanelArn":"arn:arc:panel/0000000000000001","Name":"a","RoutingControlArn":"arn:arc:control/0000000000000001"}}
slot 1 token 2 200 {"RoutingControl":{"ControlPanelArn":"arn:arc:panel/0000000000000001","Name":"b","RoutingControlArn":"arn:arc:control/0000000000000002"}}
slot 2 token 3 200 {"SafetyRuleArn":"arn:arc:rule/0000000000000001"}
slot 3 token 4 200 {}
slot 4 token 5 409 {"Reason":"Forbidden","Rules":[{"Cause":"AssertFalse","SafetyRuleArn":"arn:arc:rule/0000000000000001"}],"__type":"ConflictException"}
slot 5 token 6 200 {"RoutingControlArn":"arn:arc:control/0000000000000001","RoutingControlName":"a","RoutingControlState":"On"}

== an assertion looks at the states after the whole batch
new 0 0 0 a
new 0 0 0 b
assert 0 0 0 one ATLEAST:1 0 1,2
set 0 1 0 1 On
set 0 2 0 1 Off
batch 0 2 0 1=Off,2=On -
call 0 2 0 ListRoutingControls
----
slot 0 token 1 200 {"RoutingControl":{"ControlPanelArn":"arn:arc:panel/0000000000000001","Name":"a","RoutingControlArn":"arn:arc:control/0000000000000001"}}
slot 1 token 2 200 {"RoutingControl":{"ControlPanelArn":"arn:arc:panel/0000000000000001","Name":"b","RoutingControlArn":"arn:arc:control/0000000000000002"}}
slot 2 token 3 200 {"SafetyRuleArn":"arn:arc:rule/0000000000000001"}
slot 3 token 4 200 {}
slot 4 token 5 409 {"Reason":"Forbidden","Rules":[{"Cause":"AssertFalse","SafetyRuleArn":"arn:arc:rule/0000000000000001"}],"__type":"ConflictException"}
slot 5 token 6 200 {}
slot 6 token 7 200 {"RoutingControls":[{"ControlPanelArn":"arn:arc:panel/0000000000000001","RoutingControlArn":"arn:arc:control/0000000000000001","RoutingControlName":"a","RoutingControlState":"Off"},{"ControlPanelArn":"arn:arc:panel/0000000000000001","RoutingControlArn":"arn:arc:control/0000000000000002","RoutingControlName":"b","RoutingControlState":"On"}]}

== AND wants all of its controls On
new 0 0 0 a
new 0 0 0 b
assert 0 0 0 all AND 0 1,2
set 0 0 0 1 On
batch 0 0 0 1=On,2=On -
set 0 0 0 2 Off
batch 0 0 0 1=Off,2=Off -
----
slot 0 token 1 200 {"RoutingControl":{"ControlPanelArn":"arn:arc:panel/0000000000000001","Name":"a","RoutingControlArn":"arn:arc:control/0000000000000001"}}
slot 1 token 2 200 {"RoutingControl":{"ControlPanelArn":"arn:arc:panel/0000000000000001","Name":"b","RoutingControlArn":"arn:arc:control/0000000000000002"}}
slot 2 token 3 200 {"SafetyRuleArn":"arn:arc:rule/0000000000000001"}
slot 3 token 4 409 {"Reason":"Forbidden","Rules":[{"Cause":"AssertFalse","SafetyRuleArn":"arn:arc:rule/0000000000000001"}],"__type":"ConflictException"}
slot 4 token 5 200 {}
slot 5 token 6 409 {"Reason":"Forbidden","Rules":[{"Cause":"AssertFalse","SafetyRuleArn":"arn:arc:rule/0000000000000001"}],"__type":"ConflictException"}
slot 6 token 7 409 {"Reason":"Forbidden","Rules":[{"Cause":"AssertFalse","SafetyRuleArn":"arn:arc:rule/0000000000000001"}],"__type":"ConflictException"}

== !AND wants one of its controls Off
new 0 0 0 a
new 0 0 0 b
assert 0 0 0 not-all !AND 0 1,2
set 0 0 0 1 On
set 0 0 0 2 On
batch 0 0 0 1=Off,2=On -
batch 0 0 0 2=Off -
----
slot 0 token 1 200 {"RoutingControl":{"ControlPanelArn":"arn:arc:panel/0000000000000001","Name":"a","RoutingControlArn":"arn:arc:control/0000000000000001"}}
slot 1 token 2 200 {"RoutingControl":{"ControlPanelArn":"arn:arc:panel/0000000000000001","Name":"b","RoutingControlArn":"arn:arc:control/0000000000000002"}}
slot 2 token 3 200 {"SafetyRuleArn":"arn:arc:rule/0000000000000001"}
slot 3 token 4 200 {}
slot 4 token 5 409 {"Reason":"Forbidden","Rules":[{"Cause":"AssertFalse","SafetyRuleArn":"arn:arc:rule/0000000000000001"}],"__type":"ConflictException"}
slot 5 token 6 200 {}
slot 6 token 7 200 {}

== OR wants one of its controls On
new 0 0 0 a
new 0 0 0 b
assert 0 0 0 some OR 0 1,2
set 0 0 0 1 On
set 0 0 0 2 On
set 0 0 0 1 Off
set 0 0 0 2 Off
----
slot 0 token 1 200 {"RoutingControl":{"ControlPanelArn":"arn:arc:panel/0000000000000001","Name":"a","RoutingControlArn":"arn:arc:control/0000000000000001"}}
slot 1 token 2 200 {"RoutingControl":{"ControlPanelArn":"arn:arc:panel/0000000000000001","Name":"b","RoutingControlArn":"arn:arc:control/0000000000000002"}}
slot 2 token 3 200 {"SafetyRuleArn":"arn:arc:rule/0000000000000001"}
slot 3 token 4 200 {}
slot 4 token 5 200 {}
slot 5 token 6 200 {}
slot 6 token 7 409 {"Reason":"Forbidden","Rules":[{"Cause":"AssertFalse","SafetyRuleArn":"arn:arc:rule/0000000000000001"}],"__type":"ConflictException"}

== !OR wants all of its controls Off
new 0 0 0 a
new 0 0 0 b
batch 0 0 0 1=On,2=On -
assert 0 0 0 none !OR 0 1,2
set 0 0 0 1 Off
batch 0 0 0 1=Off,2=Off -
set 0 0 0 2 On
----
slot 0 token 1 200 {"RoutingControl":{"ControlPanelArn":"arn:arc:panel/0000000000000001","Name":"a","RoutingControlArn":"arn:arc:control/0000000000000001"}}
slot 1 token 2 200 {"RoutingControl":{"ControlPanelArn":"arn:arc:panel/0000000000000001","Name":"b","RoutingControlArn":"arn:arc:control/0000000000000002"}}
slot 2 token 3 200 {}
slot 3 token 4 200 {"SafetyRuleArn":"arn:arc:rule/0000000000000001"}
slot 4 token 5 409 {"Reason":"Forbidden","Rules":[{"Cause":"AssertFalse","SafetyRuleArn":"arn:arc:rule/0000000000000001"}],"__type":"ConflictException"}
slot 5 token 6 200 {}
slot 6 token 7 409 {"Reason":"Forbidden","Rules":[{"Cause":"AssertFalse","SafetyRuleArn":"arn:arc:rule/0000000000000001"}],"__type":"ConflictException"}

== ATLEAST:2 of three wants two On, whichever they are
new 0 0 0 a
new 0 0 0 b
new 0 0 0 c
assert 0 0 0 two ATLEAST:2 0 1,2,3
set 0 0 0 1 On
batch 0 0 0 1=On,3=On -
set 0 0 0 3 Off
set 0 0 0 2 On
set 0 0 0 3 Off
batch 0 0 0 1=Off,3=On -
batch 0 0 0 2=Off,3=Off -
----
slot 0 token 1 200 {"RoutingControl":{"ControlPanelArn":"arn:arc:panel/0000000000000001","Name":"a","RoutingControlArn":"arn:arc:control/0000000000000001"}}
slot 1 token 2 200 {"RoutingControl":{"ControlPanelArn":"arn:arc:panel/0000000000000001","Name":"b","RoutingControlArn":"arn:arc:control/0000000000000002"}}
slot 2 token 3 200 {"RoutingControl":{"ControlPanelArn":"arn:arc:panel/0000000000000001","Name":"c","RoutingControlArn":"arn:arc:control/0000000000000003"}}
slot 3 token 4 200 {"SafetyRuleArn":"arn:arc:rule/0000000000000001"}
slot 4 token 5 409 {"Reason":"Forbidden","Rules":[{"Cause":"AssertFalse","SafetyRuleArn":"arn:arc:rule/0000000000000001"}],"__type":"ConflictException"}
slot 5 token 6 200 {}
slot 6 token 7 409 {"Reason":"Forbidden","Rules":[{"Cause":"AssertFalse","SafetyRuleArn":"arn:arc:rule/0000000000000001"}],"__type":"ConflictException"}
slot 7 token 8 200 {}
slot 8 token 9 200 {}
slot 9 token 10 200 {}
slot 10 token 11 409 {"Reason":"Forbidden","Rules":[{"Cause":"AssertFalse","SafetyRuleArn":"arn:arc:rule/0000000000000001"}],"__type":"ConflictException"}

== !ATLEAST:2 wants fewer than two On
new 0 0 0 a
new 0 0 0 b
assert 0 0 0 r !ATLEAST:2 0 1,2
batch 0 1 0 1=On,2=On -
batch 0 1 0 1=On -
set 0 1 0 2 On
batch 0 1 0 1=Off,2=On -
----
slot 0 token 1 200 {"RoutingControl":{"ControlPanelArn":"arn:arc:panel/0000000000000001","Name":"a","RoutingControlArn":"arn:arc:control/0000000000000001"}}
slot 1 token 2 200 {"RoutingControl":{"ControlPanelArn":"arn:arc:panel/0000000000000001","Name":"b","RoutingControlArn":"arn:arc:control/0000000000000002"}}
slot 2 token 3 200 {"SafetyRuleArn":"arn:arc:rule/0000000000000001"}
slot 3 token 4 409 {"Reason":"Forbidden","Rules":[{"Cause":"AssertFalse","SafetyRuleArn":"arn:arc:rule/0000000000000001"}],"__type":"ConflictException"}
slot 4 token 5 200 {}
slot 5 token 6 409 {"Reason":"Forbidden","Rules":[{"Cause":"AssertFalse","SafetyRuleArn":"arn:arc:rule/0000000000000001"}],"__type":"ConflictException"}
slot 6 token 7 200 {}

== ATLEAST of as many as there are is AND
new 0 0 0 a
new 0 0 0 b
assert 0 0 0 both ATLEAST:2 0 1,2
set 0 0 0 1 On
batch 0 0 0 1=On,2=On -
set 0 0 0 1 Off
----
slot 0 token 1 200 {"RoutingControl":{"ControlPanelArn":"arn:arc:panel/0000000000000001","Name":"a","RoutingControlArn":"arn:arc:control/0000000000000001"}}
slot 1 token 2 200 {"RoutingControl":{"ControlPanelArn":"arn:arc:panel/0000000000000001","Name":"b","RoutingControlArn":"arn:arc:control/0000000000000002"}}
slot 2 token 3 200 {"SafetyRuleArn":"arn:arc:rule/0000000000000001"}
slot 3 token 4 409 {"Reason":"Forbidden","Rules":[{"Cause":"AssertFalse","SafetyRuleArn":"arn:arc:rule/0000000000000001"}],"__type":"ConflictException"}
slot 4 token 5 200 {}
slot 5 token 6 409 {"Reason":"Forbidden","Rules":[{"Cause":"AssertFalse","SafetyRuleArn":"arn:arc:rule/0000000000000001"}],"__type":"ConflictException"}

== an assertion may be made while it is false, and then minds only changes of its controls
new 0 0 0 a
new 0 0 0 b
new 0 0 0 other
assert 0 0 0 both AND 0 1,2
set 0 0 0 3 On
set 0 0 0 1 On
----
slot 0 token 1 200 {"RoutingControl":{"ControlPanelArn":"arn:arc:panel/0000000000000001","Name":"a","RoutingControlArn":"arn:arc:control/0000000000000001"}}
slot 1 token 2 200 {"RoutingControl":{"ControlPanelArn":"arn:arc:panel/0000000000000001","Name":"b","RoutingControlArn":"arn:arc:control/0000000000000002"}}
slot 2 token 3 200 {"RoutingControl":{"ControlPanelArn":"arn:arc:panel/0000000000000001","Name":"other","RoutingControlArn":"arn:arc:control/0000000000000003"}}
slot 3 token 4 200 {"SafetyRuleArn":"arn:arc:rule/0000000000000001"}
slot 4 token 5 200 {}
slot 5 token 6 409 {"Reason":"Forbidden","Rules":[{"Cause":"AssertFalse","SafetyRuleArn":"arn:arc:rule/0000000000000001"}],"__type":"ConflictException"}

== a change that makes a false assertion less false is refused too
new 0 0 0 a
new 0 0 0 b
new 0 0 0 c
assert 0 0 0 three AND 0 1,2,3
batch 0 0 0 1=On,2=On -
batch 0 0 0 1=On,2=On,3=On -
----
slot 0 token 1 200 {"RoutingControl":{"ControlPanelArn":"arn:arc:panel/0000000000000001","Name":"a","RoutingControlArn":"arn:arc:control/0000000000000001"}}
slot 1 token 2 200 {"RoutingControl":{"ControlPanelArn":"arn:arc:panel/0000000000000001","Name":"b","RoutingControlArn":"arn:arc:control/0000000000000002"}}
slot 2 token 3 200 {"RoutingControl":{"ControlPanelArn":"arn:arc:panel/0000000000000001","Name":"c","RoutingControlArn":"arn:arc:control/0000000000000003"}}
slot 3 token 4 200 {"SafetyRuleArn":"arn:arc:rule/0000000000000001"}
slot 4 token 5 409 {"Reason":"Forbidden","Rules":[{"Cause":"AssertFalse","SafetyRuleArn":"arn:arc:rule/0000000000000001"}],"__type":"ConflictException"}
slot 5 token 6 200 {}

== what changes nothing meets no assertion, even a false one
new 0 0 0 a
new 0 0 0 b
batch 0 1 0 1=On,2=On -
assert 0 1 0 two ATLEAST:2 0 1,2
set 0 2 0 1 Off
batch 0 3 0 1=Off 1
set 0 4 0 2 Off
set 0 5 0 2 On
set 0 6 0 1 Off
call 0 7 0 ListRoutingControls
----
slot 0 token 1 200 {"RoutingControl":{"ControlPanelArn":"arn:arc:panel/0000000000000001","Name":"a","RoutingControlArn":"arn:arc:control/0000000000000001"}}
slot 1 token 2 200 {"RoutingControl":{"ControlPanelArn":"arn:arc:panel/0000000000000001","Name":"b","RoutingControlArn":"arn:arc:control/0000000000000002"}}
slot 2 token 3 200 {}
slot 3 token 4 200 {"SafetyRuleArn":"arn:arc:rule/0000000000000001"}
slot 4 token 5 409 {"Reason":"Forbidden","Rules":[{"Cause":"AssertFalse","SafetyRuleArn":"arn:arc:rule/0000000000000001"}],"__type":"ConflictException"}
slot 5 token 6 200 {}
slot 6 token 7 409 {"Reason":"Forbidden","Rules":[{"Cause":"AssertFalse","SafetyRuleArn":"arn:arc:rule/0000000000000001"}],"__type":"ConflictException"}
slot 7 token 8 200 {}
slot 8 token 9 200 {}
slot 9 token 10 200 {"RoutingControls":[{"ControlPanelArn":"arn:arc:panel/0000000000000001","RoutingControlArn":"arn:arc:control/0000000000000001","RoutingControlName":"a","RoutingControlState":"Off"},{"ControlPanelArn":"arn:arc:panel/0000000000000001","RoutingControlArn":"arn:arc:control/0000000000000002","RoutingControlName":"b","RoutingControlState":"On"}]}

== an entry that changes nothing doesn't make a batch meet its assertion
new 0 0 0 a
new 0 0 0 b
assert 0 0 0 a-on AND 0 1
# The assertion over control 1 is false, and control 1 stays as it is.
batch 0 0 0 1=Off,2=On -
----
slot 0 token 1 200 {"RoutingControl":{"ControlPanelArn":"arn:arc:panel/0000000000000001","Name":"a","RoutingControlArn":"arn:arc:control/0000000000000001"}}
slot 1 token 2 200 {"RoutingControl":{"ControlPanelArn":"arn:arc:panel/0000000000000001","Name":"b","RoutingControlArn":"arn:arc:control/0000000000000002"}}
slot 2 token 3 200 {"SafetyRuleArn":"arn:arc:rule/0000000000000001"}
slot 3 token 4 200 {}

== an assertion over one control pins it
new 0 0 0 a
assert 0 0 0 pinned !AND 0 1
set 0 0 0 1 On
set 0 0 0 1 Off
----
slot 0 token 1 200 {"RoutingControl":{"ControlPanelArn":"arn:arc:panel/0000000000000001","Name":"a","RoutingControlArn":"arn:arc:control/0000000000000001"}}
slot 1 token 2 200 {"SafetyRuleArn":"arn:arc:rule/0000000000000001"}
slot 2 token 3 409 {"Reason":"Forbidden","Rules":[{"Cause":"AssertFalse","SafetyRuleArn":"arn:arc:rule/0000000000000001"}],"__type":"ConflictException"}
slot 3 token 4 200 {}

== two assertions may leave no change at all
new 0 0 0 a
new 0 0 0 b
set 0 0 0 1 On
assert 0 0 0 some OR 0 1,2
assert 0 0 0 not-b !AND 0 2
set 0 0 0 1 Off
set 0 0 0 2 On
batch 0 0 0 1=Off,2=On -
----
slot 0 token 1 200 {"RoutingControl":{"ControlPanelArn":"arn:arc:panel/0000000000000001","Name":"a","RoutingControlArn":"arn:arc:control/0000000000000001"}}
slot 1 token 2 200 {"RoutingControl":{"ControlPanelArn":"arn:arc:panel/0000000000000001","Name":"b","RoutingControlArn":"arn:arc:control/0000000000000002"}}
slot 2 token 3 200 {}
slot 3 token 4 200 {"SafetyRuleArn":"arn:arc:rule/0000000000000001"}
slot 4 token 5 200 {"SafetyRuleArn":"arn:arc:rule/0000000000000002"}
slot 5 token 6 409 {"Reason":"Forbidden","Rules":[{"Cause":"AssertFalse","SafetyRuleArn":"arn:arc:rule/0000000000000001"}],"__type":"ConflictException"}
slot 6 token 7 409 {"Reason":"Forbidden","Rules":[{"Cause":"AssertFalse","SafetyRuleArn":"arn:arc:rule/0000000000000002"}],"__type":"ConflictException"}
slot 7 token 8 409 {"Reason":"Forbidden","Rules":[{"Cause":"AssertFalse","SafetyRuleArn":"arn:arc:rule/0000000000000002"}],"__type":"ConflictException"}

== an assertion in another panel looks at that panel's controls
call 0 0 0 CreateControlPanel {"ControlPanelName":"ops"}
new 0 0 0 a
call 0 0 0 CreateRoutingControl {"RoutingControlName":"a","ControlPanelArn":"arn:arc:panel/0000000000000002"}
call 0 0 0 CreateSafetyRule {"AssertionRule":{"Name":"a-off","ControlPanelArn":"arn:arc:panel/0000000000000002","AssertedControls":["arn:arc:control/0000000000000002"],"RuleConfig":{"Type":"OR","Inverted":true},"WaitPeriodMs":0}}
set 0 0 0 1 On
set 0 0 0 2 On
----
slot 0 token 1 200 {"ControlPanel":{"ControlPanelArn":"arn:arc:panel/0000000000000002","Name":"ops"}}
slot 1 token 2 200 {"RoutingControl":{"ControlPanelArn":"arn:arc:panel/0000000000000001","Name":"a","RoutingControlArn":"arn:arc:control/0000000000000001"}}
slot 2 token 3 200 {"RoutingControl":{"ControlPanelArn":"arn:arc:panel/0000000000000002","Name":"a","RoutingControlArn":"arn:arc:control/0000000000000002"}}
slot 3 token 4 200 {"SafetyRuleArn":"arn:arc:rule/0000000000000001"}
slot 4 token 5 200 {}
slot 5 token 6 409 {"Reason":"Forbidden","Rules":[{"Cause":"AssertFalse","SafetyRuleArn":"arn:arc:rule/0000000000000001"}],"__type":"ConflictException"}

== the threshold of AND and OR is ignored
new 0 0 0 a
new 0 0 0 b
call 0 0 0 CreateSafetyRule {"AssertionRule":{"Name":"some","ControlPanelArn":"arn:arc:panel/0000000000000001","AssertedControls":["arn:arc:control/0000000000000001","arn:arc:control/0000000000000002"],"RuleConfig":{"Type":"OR","Threshold":9},"WaitPeriodMs":0}}
call 0 0 0 CreateSafetyRule {"AssertionRule":{"Name":"not-all","ControlPanelArn":"arn:arc:panel/0000000000000001","AssertedControls":["arn:arc:control/0000000000000001","arn:arc:control/0000000000000002"],"RuleConfig":{"Type":"AND","Threshold":1,"Inverted":true},"WaitPeriodMs":0}}
set 0 0 0 1 On
set 0 0 0 2 On
----
slot 0 token 1 200 {"RoutingControl":{"ControlPanelArn":"arn:arc:panel/0000000000000001","Name":"a","RoutingControlArn":"arn:arc:control/0000000000000001"}}
slot 1 token 2 200 {"RoutingControl":{"ControlPanelArn":"arn:arc:panel/0000000000000001","Name":"b","RoutingControlArn":"arn:arc:control/0000000000000002"}}
slot 2 token 3 200 {"SafetyRuleArn":"arn:arc:rule/0000000000000001"}
slot 3 token 4 200 {"SafetyRuleArn":"arn:arc:rule/0000000000000002"}
slot 4 token 5 200 {}
slot 5 token 6 409 {"Reason":"Forbidden","Rules":[{"Cause":"AssertFalse","SafetyRuleArn":"arn:arc:rule/0000000000000002"}],"__type":"ConflictException"}

== the controls of an assertion may stand in any order
new 0 0 0 a
new 0 0 0 b
new 0 0 0 c
assert 0 0 0 two ATLEAST:2 0 3,1,2
batch 0 0 0 2=On,3=On -
set 0 0 0 3 Off
----
slot 0 token 1 200 {"RoutingControl":{"ControlPanelArn":"arn:arc:panel/0000000000000001","Name":"a","RoutingControlArn":"arn:arc:control/0000000000000001"}}
slot 1 token 2 200 {"RoutingControl":{"ControlPanelArn":"arn:arc:panel/0000000000000001","Name":"b","RoutingControlArn":"arn:arc:control/0000000000000002"}}
slot 2 token 3 200 {"RoutingControl":{"ControlPanelArn":"arn:arc:panel/0000000000000001","Name":"c","RoutingControlArn":"arn:arc:control/0000000000000003"}}
slot 3 token 4 200 {"SafetyRuleArn":"arn:arc:rule/0000000000000001"}
slot 4 token 5 200 {}
slot 5 token 6 409 {"Reason":"Forbidden","Rules":[{"Cause":"AssertFalse","SafetyRuleArn":"arn:arc:rule/0000000000000001"}],"__type":"ConflictException"}
