# Each state of three controls, under each kind of rule.

== an assertion with AND lets these of eight states come
new 0 0 0 a
new 0 0 0 b
new 0 0 0 c
assert 0 0 0 r AND 0 1,2,3
batch 0 0 0 1=Off,2=Off,3=Off -
batch 0 0 0 1=Off,2=Off,3=On -
batch 0 0 0 1=Off,2=On,3=Off -
batch 0 0 0 1=Off,2=On,3=On -
batch 0 0 0 1=On,2=Off,3=Off -
batch 0 0 0 1=On,2=Off,3=On -
batch 0 0 0 1=On,2=On,3=Off -
batch 0 0 0 1=On,2=On,3=On -
----
slot 0 token 1 200 {"RoutingControl":{"ControlPanelArn":"arn:arc:panel/0000000000000001","Name":"a","RoutingControlArn":"arn:arc:control/0000000000000001"}}
slot 1 token 2 200 {"RoutingControl":{"ControlPanelArn":"arn:arc:panel/0000000000000001","Name":"b","RoutingControlArn":"arn:arc:control/0000000000000002"}}
slot 2 token 3 200 {"RoutingControl":{"ControlPanelArn":"arn:arc:panel/0000000000000001","Name":"c","RoutingControlArn":"arn:arc:control/0000000000000003"}}
slot 3 token 4 200 {"SafetyRuleArn":"arn:arc:rule/0000000000000001"}
slot 4 token 5 200 {}
slot 5 token 6 409 {"Reason":"Forbidden","Rules":[{"Cause":"AssertFalse","SafetyRuleArn":"arn:arc:rule/0000000000000001"}],"__type":"ConflictException"}
slot 6 token 7 409 {"Reason":"Forbidden","Rules":[{"Cause":"AssertFalse","SafetyRuleArn":"arn:arc:rule/0000000000000001"}],"__type":"ConflictException"}
slot 7 token 8 409 {"Reason":"Forbidden","Rules":[{"Cause":"AssertFalse","SafetyRuleArn":"arn:arc:rule/0000000000000001"}],"__type":"ConflictException"}
slot 8 token 9 409 {"Reason":"Forbidden","Rules":[{"Cause":"AssertFalse","SafetyRuleArn":"arn:arc:rule/0000000000000001"}],"__type":"ConflictException"}
slot 9 token 10 409 {"Reason":"Forbidden","Rules":[{"Cause":"AssertFalse","SafetyRuleArn":"arn:arc:rule/0000000000000001"}],"__type":"ConflictException"}
slot 10 token 11 409 {"Reason":"Forbidden","Rules":[{"Cause":"AssertFalse","SafetyRuleArn":"arn:arc:rule/0000000000000001"}],"__type":"ConflictException"}
slot 11 token 12 200 {}

== an assertion with !AND lets these of eight states come
new 0 0 0 a
new 0 0 0 b
new 0 0 0 c
assert 0 0 0 r !AND 0 1,2,3
batch 0 0 0 1=Off,2=Off,3=Off -
batch 0 0 0 1=Off,2=Off,3=On -
batch 0 0 0 1=Off,2=On,3=Off -
batch 0 0 0 1=Off,2=On,3=On -
batch 0 0 0 1=On,2=Off,3=Off -
batch 0 0 0 1=On,2=Off,3=On -
batch 0 0 0 1=On,2=On,3=Off -
batch 0 0 0 1=On,2=On,3=On -
----
slot 0 token 1 200 {"RoutingControl":{"ControlPanelArn":"arn:arc:panel/0000000000000001","Name":"a","RoutingControlArn":"arn:arc:control/0000000000000001"}}
slot 1 token 2 200 {"RoutingControl":{"ControlPanelArn":"arn:arc:panel/0000000000000001","Name":"b","RoutingControlArn":"arn:arc:control/0000000000000002"}}
slot 2 token 3 200 {"RoutingControl":{"ControlPanelArn":"arn:arc:panel/0000000000000001","Name":"c","RoutingControlArn":"arn:arc:control/0000000000000003"}}
slot 3 token 4 200 {"SafetyRuleArn":"arn:arc:rule/0000000000000001"}
slot 4 token 5 200 {}
slot 5 token 6 200 {}
slot 6 token 7 200 {}
slot 7 token 8 200 {}
slot 8 token 9 200 {}
slot 9 token 10 200 {}
slot 10 token 11 200 {}
slot 11 token 12 409 {"Reason":"Forbidden","Rules":[{"Cause":"AssertFalse","SafetyRuleArn":"arn:arc:rule/0000000000000001"}],"__type":"ConflictException"}

== an assertion with OR lets these of eight states come
new 0 0 0 a
new 0 0 0 b
new 0 0 0 c
assert 0 0 0 r OR 0 1,2,3
batch 0 0 0 1=Off,2=Off,3=Off -
batch 0 0 0 1=Off,2=Off,3=On -
batch 0 0 0 1=Off,2=On,3=Off -
batch 0 0 0 1=Off,2=On,3=On -
batch 0 0 0 1=On,2=Off,3=Off -
batch 0 0 0 1=On,2=Off,3=On -
batch 0 0 0 1=On,2=On,3=Off -
batch 0 0 0 1=On,2=On,3=On -
----
slot 0 token 1 200 {"RoutingControl":{"ControlPanelArn":"arn:arc:panel/0000000000000001","Name":"a","RoutingControlArn":"arn:arc:control/0000000000000001"}}
slot 1 token 2 200 {"RoutingControl":{"ControlPanelArn":"arn:arc:panel/0000000000000001","Name":"b","RoutingControlArn":"arn:arc:control/0000000000000002"}}
slot 2 token 3 200 {"RoutingControl":{"ControlPanelArn":"arn:arc:panel/0000000000000001","Name":"c","RoutingControlArn":"arn:arc:control/0000000000000003"}}
slot 3 token 4 200 {"SafetyRuleArn":"arn:arc:rule/0000000000000001"}
slot 4 token 5 200 {}
slot 5 token 6 200 {}
slot 6 token 7 200 {}
slot 7 token 8 200 {}
slot 8 token 9 200 {}
slot 9 token 10 200 {}
slot 10 token 11 200 {}
slot 11 token 12 200 {}

== an assertion with !OR lets these of eight states come
new 0 0 0 a
new 0 0 0 b
new 0 0 0 c
assert 0 0 0 r !OR 0 1,2,3
batch 0 0 0 1=Off,2=Off,3=Off -
batch 0 0 0 1=Off,2=Off,3=On -
batch 0 0 0 1=Off,2=On,3=Off -
batch 0 0 0 1=Off,2=On,3=On -
batch 0 0 0 1=On,2=Off,3=Off -
batch 0 0 0 1=On,2=Off,3=On -
batch 0 0 0 1=On,2=On,3=Off -
batch 0 0 0 1=On,2=On,3=On -
----
slot 0 token 1 200 {"RoutingControl":{"ControlPanelArn":"arn:arc:panel/0000000000000001","Name":"a","RoutingControlArn":"arn:arc:control/0000000000000001"}}
slot 1 token 2 200 {"RoutingControl":{"ControlPanelArn":"arn:arc:panel/0000000000000001","Name":"b","RoutingControlArn":"arn:arc:control/0000000000000002"}}
slot 2 token 3 200 {"RoutingControl":{"ControlPanelArn":"arn:arc:panel/0000000000000001","Name":"c","RoutingControlArn":"arn:arc:control/0000000000000003"}}
slot 3 token 4 200 {"SafetyRuleArn":"arn:arc:rule/0000000000000001"}
slot 4 token 5 200 {}
slot 5 token 6 409 {"Reason":"Forbidden","Rules":[{"Cause":"AssertFalse","SafetyRuleArn":"arn:arc:rule/0000000000000001"}],"__type":"ConflictException"}
slot 6 token 7 409 {"Reason":"Forbidden","Rules":[{"Cause":"AssertFalse","SafetyRuleArn":"arn:arc:rule/0000000000000001"}],"__type":"ConflictException"}
slot 7 token 8 409 {"Reason":"Forbidden","Rules":[{"Cause":"AssertFalse","SafetyRuleArn":"arn:arc:rule/0000000000000001"}],"__type":"ConflictException"}
slot 8 token 9 409 {"Reason":"Forbidden","Rules":[{"Cause":"AssertFalse","SafetyRuleArn":"arn:arc:rule/0000000000000001"}],"__type":"ConflictException"}
slot 9 token 10 409 {"Reason":"Forbidden","Rules":[{"Cause":"AssertFalse","SafetyRuleArn":"arn:arc:rule/0000000000000001"}],"__type":"ConflictException"}
slot 10 token 11 409 {"Reason":"Forbidden","Rules":[{"Cause":"AssertFalse","SafetyRuleArn":"arn:arc:rule/0000000000000001"}],"__type":"ConflictException"}
slot 11 token 12 409 {"Reason":"Forbidden","Rules":[{"Cause":"AssertFalse","SafetyRuleArn":"arn:arc:rule/0000000000000001"}],"__type":"ConflictException"}

== an assertion with ATLEAST:2 lets these of eight states come
new 0 0 0 a
new 0 0 0 b
new 0 0 0 c
assert 0 0 0 r ATLEAST:2 0 1,2,3
batch 0 0 0 1=Off,2=Off,3=Off -
batch 0 0 0 1=Off,2=Off,3=On -
batch 0 0 0 1=Off,2=On,3=Off -
batch 0 0 0 1=Off,2=On,3=On -
batch 0 0 0 1=On,2=Off,3=Off -
batch 0 0 0 1=On,2=Off,3=On -
batch 0 0 0 1=On,2=On,3=Off -
batch 0 0 0 1=On,2=On,3=On -
----
slot 0 token 1 200 {"RoutingControl":{"ControlPanelArn":"arn:arc:panel/0000000000000001","Name":"a","RoutingControlArn":"arn:arc:control/0000000000000001"}}
slot 1 token 2 200 {"RoutingControl":{"ControlPanelArn":"arn:arc:panel/0000000000000001","Name":"b","RoutingControlArn":"arn:arc:control/0000000000000002"}}
slot 2 token 3 200 {"RoutingControl":{"ControlPanelArn":"arn:arc:panel/0000000000000001","Name":"c","RoutingControlArn":"arn:arc:control/0000000000000003"}}
slot 3 token 4 200 {"SafetyRuleArn":"arn:arc:rule/0000000000000001"}
slot 4 token 5 200 {}
slot 5 token 6 409 {"Reason":"Forbidden","Rules":[{"Cause":"AssertFalse","SafetyRuleArn":"arn:arc:rule/0000000000000001"}],"__type":"ConflictException"}
slot 6 token 7 409 {"Reason":"Forbidden","Rules":[{"Cause":"AssertFalse","SafetyRuleArn":"arn:arc:rule/0000000000000001"}],"__type":"ConflictException"}
slot 7 token 8 200 {}
slot 8 token 9 409 {"Reason":"Forbidden","Rules":[{"Cause":"AssertFalse","SafetyRuleArn":"arn:arc:rule/0000000000000001"}],"__type":"ConflictException"}
slot 9 token 10 200 {}
slot 10 token 11 200 {}
slot 11 token 12 200 {}

== an assertion with !ATLEAST:2 lets these of eight states come
new 0 0 0 a
new 0 0 0 b
new 0 0 0 c
assert 0 0 0 r !ATLEAST:2 0 1,2,3
batch 0 0 0 1=Off,2=Off,3=Off -
batch 0 0 0 1=Off,2=Off,3=On -
batch 0 0 0 1=Off,2=On,3=Off -
batch 0 0 0 1=Off,2=On,3=On -
batch 0 0 0 1=On,2=Off,3=Off -
batch 0 0 0 1=On,2=Off,3=On -
batch 0 0 0 1=On,2=On,3=Off -
batch 0 0 0 1=On,2=On,3=On -
----
slot 0 token 1 200 {"RoutingControl":{"ControlPanelArn":"arn:arc:panel/0000000000000001","Name":"a","RoutingControlArn":"arn:arc:control/0000000000000001"}}
slot 1 token 2 200 {"RoutingControl":{"ControlPanelArn":"arn:arc:panel/0000000000000001","Name":"b","RoutingControlArn":"arn:arc:control/0000000000000002"}}
slot 2 token 3 200 {"RoutingControl":{"ControlPanelArn":"arn:arc:panel/0000000000000001","Name":"c","RoutingControlArn":"arn:arc:control/0000000000000003"}}
slot 3 token 4 200 {"SafetyRuleArn":"arn:arc:rule/0000000000000001"}
slot 4 token 5 200 {}
slot 5 token 6 200 {}
slot 6 token 7 200 {}
slot 7 token 8 409 {"Reason":"Forbidden","Rules":[{"Cause":"AssertFalse","SafetyRuleArn":"arn:arc:rule/0000000000000001"}],"__type":"ConflictException"}
slot 8 token 9 200 {}
slot 9 token 10 409 {"Reason":"Forbidden","Rules":[{"Cause":"AssertFalse","SafetyRuleArn":"arn:arc:rule/0000000000000001"}],"__type":"ConflictException"}
slot 10 token 11 409 {"Reason":"Forbidden","Rules":[{"Cause":"AssertFalse","SafetyRuleArn":"arn:arc:rule/0000000000000001"}],"__type":"ConflictException"}
slot 11 token 12 409 {"Reason":"Forbidden","Rules":[{"Cause":"AssertFalse","SafetyRuleArn":"arn:arc:rule/0000000000000001"}],"__type":"ConflictException"}

== a gate with AND is open in these of eight states
new 0 0 0 g
new 0 0 0 h
new 0 0 0 i
new 0 0 0 t
gate 0 0 0 r AND 0 1,2,3 4
batch 0 0 0 1=Off,2=Off,3=Off -
set 0 0 0 4 On
batch 0 0 0 1=Off,2=Off,3=On -
set 0 0 0 4 On
batch 0 0 0 1=Off,2=On,3=Off -
set 0 0 0 4 On
batch 0 0 0 1=Off,2=On,3=On -
set 0 0 0 4 On
batch 0 0 0 1=On,2=Off,3=Off -
set 0 0 0 4 On
batch 0 0 0 1=On,2=Off,3=On -
set 0 0 0 4 On
batch 0 0 0 1=On,2=On,3=Off -
set 0 0 0 4 On
batch 0 0 0 1=On,2=On,3=On -
set 0 0 0 4 On
----
slot 0 token 1 200 {"RoutingControl":{"ControlPanelArn":"arn:arc:panel/0000000000000001","Name":"g","RoutingControlArn":"arn:arc:control/0000000000000001"}}
slot 1 token 2 200 {"RoutingControl":{"ControlPanelArn":"arn:arc:panel/0000000000000001","Name":"h","RoutingControlArn":"arn:arc:control/0000000000000002"}}
slot 2 token 3 200 {"RoutingControl":{"ControlPanelArn":"arn:arc:panel/0000000000000001","Name":"i","RoutingControlArn":"arn:arc:control/0000000000000003"}}
slot 3 token 4 200 {"RoutingControl":{"ControlPanelArn":"arn:arc:panel/0000000000000001","Name":"t","RoutingControlArn":"arn:arc:control/0000000000000004"}}
slot 4 token 5 200 {"SafetyRuleArn":"arn:arc:rule/0000000000000001"}
slot 5 token 6 200 {}
slot 6 token 7 409 {"Reason":"Forbidden","Rules":[{"Cause":"GateClosed","SafetyRuleArn":"arn:arc:rule/0000000000000001"}],"__type":"ConflictException"}
slot 7 token 8 200 {}
slot 8 token 9 409 {"Reason":"Forbidden","Rules":[{"Cause":"GateClosed","SafetyRuleArn":"arn:arc:rule/0000000000000001"}],"__type":"ConflictException"}
slot 9 token 10 200 {}
slot 10 token 11 409 {"Reason":"Forbidden","Rules":[{"Cause":"GateClosed","SafetyRuleArn":"arn:arc:rule/0000000000000001"}],"__type":"ConflictException"}
slot 11 token 12 200 {}
slot 12 token 13 409 {"Reason":"Forbidden","Rules":[{"Cause":"GateClosed","SafetyRuleArn":"arn:arc:rule/0000000000000001"}],"__type":"ConflictException"}
slot 13 token 14 200 {}
slot 14 token 15 409 {"Reason":"Forbidden","Rules":[{"Cause":"GateClosed","SafetyRuleArn":"arn:arc:rule/0000000000000001"}],"__type":"ConflictException"}
slot 15 token 16 200 {}
slot 16 token 17 409 {"Reason":"Forbidden","Rules":[{"Cause":"GateClosed","SafetyRuleArn":"arn:arc:rule/0000000000000001"}],"__type":"ConflictException"}
slot 17 token 18 200 {}
slot 18 token 19 409 {"Reason":"Forbidden","Rules":[{"Cause":"GateClosed","SafetyRuleArn":"arn:arc:rule/0000000000000001"}],"__type":"ConflictException"}
slot 19 token 20 200 {}
slot 20 token 21 200 {}

== a gate with !AND is open in these of eight states
new 0 0 0 g
new 0 0 0 h
new 0 0 0 i
new 0 0 0 t
gate 0 0 0 r !AND 0 1,2,3 4
batch 0 0 0 1=Off,2=Off,3=Off -
set 0 0 0 4 On
batch 0 0 0 1=Off,2=Off,3=On -
set 0 0 0 4 Off
batch 0 0 0 1=Off,2=On,3=Off -
set 0 0 0 4 On
batch 0 0 0 1=Off,2=On,3=On -
set 0 0 0 4 Off
batch 0 0 0 1=On,2=Off,3=Off -
set 0 0 0 4 On
batch 0 0 0 1=On,2=Off,3=On -
set 0 0 0 4 Off
batch 0 0 0 1=On,2=On,3=Off -
set 0 0 0 4 On
batch 0 0 0 1=On,2=On,3=On -
set 0 0 0 4 Off
----
slot 0 token 1 200 {"RoutingControl":{"ControlPanelArn":"arn:arc:panel/0000000000000001","Name":"g","RoutingControlArn":"arn:arc:control/0000000000000001"}}
slot 1 token 2 200 {"RoutingControl":{"ControlPanelArn":"arn:arc:panel/0000000000000001","Name":"h","RoutingControlArn":"arn:arc:control/0000000000000002"}}
slot 2 token 3 200 {"RoutingControl":{"ControlPanelArn":"arn:arc:panel/0000000000000001","Name":"i","RoutingControlArn":"arn:arc:control/0000000000000003"}}
slot 3 token 4 200 {"RoutingControl":{"ControlPanelArn":"arn:arc:panel/0000000000000001","Name":"t","RoutingControlArn":"arn:arc:control/0000000000000004"}}
slot 4 token 5 200 {"SafetyRuleArn":"arn:arc:rule/0000000000000001"}
slot 5 token 6 200 {}
slot 6 token 7 200 {}
slot 7 token 8 200 {}
slot 8 token 9 200 {}
slot 9 token 10 200 {}
slot 10 token 11 200 {}
slot 11 token 12 200 {}
slot 12 token 13 200 {}
slot 13 token 14 200 {}
slot 14 token 15 200 {}
slot 15 token 16 200 {}
slot 16 token 17 200 {}
slot 17 token 18 200 {}
slot 18 token 19 200 {}
slot 19 token 20 200 {}
slot 20 token 21 409 {"Reason":"Forbidden","Rules":[{"Cause":"GateClosed","SafetyRuleArn":"arn:arc:rule/0000000000000001"}],"__type":"ConflictException"}

== a gate with OR is open in these of eight states
new 0 0 0 g
new 0 0 0 h
new 0 0 0 i
new 0 0 0 t
gate 0 0 0 r OR 0 1,2,3 4
batch 0 0 0 1=Off,2=Off,3=Off -
set 0 0 0 4 On
batch 0 0 0 1=Off,2=Off,3=On -
set 0 0 0 4 On
batch 0 0 0 1=Off,2=On,3=Off -
set 0 0 0 4 Off
batch 0 0 0 1=Off,2=On,3=On -
set 0 0 0 4 On
batch 0 0 0 1=On,2=Off,3=Off -
set 0 0 0 4 Off
batch 0 0 0 1=On,2=Off,3=On -
set 0 0 0 4 On
batch 0 0 0 1=On,2=On,3=Off -
set 0 0 0 4 Off
batch 0 0 0 1=On,2=On,3=On -
set 0 0 0 4 On
----
slot 0 token 1 200 {"RoutingControl":{"ControlPanelArn":"arn:arc:panel/0000000000000001","Name":"g","RoutingControlArn":"arn:arc:control/0000000000000001"}}
slot 1 token 2 200 {"RoutingControl":{"ControlPanelArn":"arn:arc:panel/0000000000000001","Name":"h","RoutingControlArn":"arn:arc:control/0000000000000002"}}
slot 2 token 3 200 {"RoutingControl":{"ControlPanelArn":"arn:arc:panel/0000000000000001","Name":"i","RoutingControlArn":"arn:arc:control/0000000000000003"}}
slot 3 token 4 200 {"RoutingControl":{"ControlPanelArn":"arn:arc:panel/0000000000000001","Name":"t","RoutingControlArn":"arn:arc:control/0000000000000004"}}
slot 4 token 5 200 {"SafetyRuleArn":"arn:arc:rule/0000000000000001"}
slot 5 token 6 200 {}
slot 6 token 7 409 {"Reason":"Forbidden","Rules":[{"Cause":"GateClosed","SafetyRuleArn":"arn:arc:rule/0000000000000001"}],"__type":"ConflictException"}
slot 7 token 8 200 {}
slot 8 token 9 200 {}
slot 9 token 10 200 {}
slot 10 token 11 200 {}
slot 11 token 12 200 {}
slot 12 token 13 200 {}
slot 13 token 14 200 {}
slot 14 token 15 200 {}
slot 15 token 16 200 {}
slot 16 token 17 200 {}
slot 17 token 18 200 {}
slot 18 token 19 200 {}
slot 19 token 20 200 {}
slot 20 token 21 200 {}

== a gate with !OR is open in these of eight states
new 0 0 0 g
new 0 0 0 h
new 0 0 0 i
new 0 0 0 t
gate 0 0 0 r !OR 0 1,2,3 4
batch 0 0 0 1=Off,2=Off,3=Off -
set 0 0 0 4 On
batch 0 0 0 1=Off,2=Off,3=On -
set 0 0 0 4 Off
batch 0 0 0 1=Off,2=On,3=Off -
set 0 0 0 4 Off
batch 0 0 0 1=Off,2=On,3=On -
set 0 0 0 4 Off
batch 0 0 0 1=On,2=Off,3=Off -
set 0 0 0 4 Off
batch 0 0 0 1=On,2=Off,3=On -
set 0 0 0 4 Off
batch 0 0 0 1=On,2=On,3=Off -
set 0 0 0 4 Off
batch 0 0 0 1=On,2=On,3=On -
set 0 0 0 4 Off
----
slot 0 token 1 200 {"RoutingControl":{"ControlPanelArn":"arn:arc:panel/0000000000000001","Name":"g","RoutingControlArn":"arn:arc:control/0000000000000001"}}
slot 1 token 2 200 {"RoutingControl":{"ControlPanelArn":"arn:arc:panel/0000000000000001","Name":"h","RoutingControlArn":"arn:arc:control/0000000000000002"}}
slot 2 token 3 200 {"RoutingControl":{"ControlPanelArn":"arn:arc:panel/0000000000000001","Name":"i","RoutingControlArn":"arn:arc:control/0000000000000003"}}
slot 3 token 4 200 {"RoutingControl":{"ControlPanelArn":"arn:arc:panel/0000000000000001","Name":"t","RoutingControlArn":"arn:arc:control/0000000000000004"}}
slot 4 token 5 200 {"SafetyRuleArn":"arn:arc:rule/0000000000000001"}
slot 5 token 6 200 {}
slot 6 token 7 200 {}
slot 7 token 8 200 {}
slot 8 token 9 409 {"Reason":"Forbidden","Rules":[{"Cause":"GateClosed","SafetyRuleArn":"arn:arc:rule/0000000000000001"}],"__type":"ConflictException"}
slot 9 token 10 200 {}
slot 10 token 11 409 {"Reason":"Forbidden","Rules":[{"Cause":"GateClosed","SafetyRuleArn":"arn:arc:rule/0000000000000001"}],"__type":"ConflictException"}
slot 11 token 12 200 {}
slot 12 token 13 409 {"Reason":"Forbidden","Rules":[{"Cause":"GateClosed","SafetyRuleArn":"arn:arc:rule/0000000000000001"}],"__type":"ConflictException"}
slot 13 token 14 200 {}
slot 14 token 15 409 {"Reason":"Forbidden","Rules":[{"Cause":"GateClosed","SafetyRuleArn":"arn:arc:rule/0000000000000001"}],"__type":"ConflictException"}
slot 15 token 16 200 {}
slot 16 token 17 409 {"Reason":"Forbidden","Rules":[{"Cause":"GateClosed","SafetyRuleArn":"arn:arc:rule/0000000000000001"}],"__type":"ConflictException"}
slot 17 token 18 200 {}
slot 18 token 19 409 {"Reason":"Forbidden","Rules":[{"Cause":"GateClosed","SafetyRuleArn":"arn:arc:rule/0000000000000001"}],"__type":"ConflictException"}
slot 19 token 20 200 {}
slot 20 token 21 409 {"Reason":"Forbidden","Rules":[{"Cause":"GateClosed","SafetyRuleArn":"arn:arc:rule/0000000000000001"}],"__type":"ConflictException"}

== a gate with ATLEAST:2 is open in these of eight states
new 0 0 0 g
new 0 0 0 h
new 0 0 0 i
new 0 0 0 t
gate 0 0 0 r ATLEAST:2 0 1,2,3 4
batch 0 0 0 1=Off,2=Off,3=Off -
set 0 0 0 4 On
batch 0 0 0 1=Off,2=Off,3=On -
set 0 0 0 4 On
batch 0 0 0 1=Off,2=On,3=Off -
set 0 0 0 4 On
batch 0 0 0 1=Off,2=On,3=On -
set 0 0 0 4 On
batch 0 0 0 1=On,2=Off,3=Off -
set 0 0 0 4 Off
batch 0 0 0 1=On,2=Off,3=On -
set 0 0 0 4 Off
batch 0 0 0 1=On,2=On,3=Off -
set 0 0 0 4 On
batch 0 0 0 1=On,2=On,3=On -
set 0 0 0 4 Off
----
slot 0 token 1 200 {"RoutingControl":{"ControlPanelArn":"arn:arc:panel/0000000000000001","Name":"g","RoutingControlArn":"arn:arc:control/0000000000000001"}}
slot 1 token 2 200 {"RoutingControl":{"ControlPanelArn":"arn:arc:panel/0000000000000001","Name":"h","RoutingControlArn":"arn:arc:control/0000000000000002"}}
slot 2 token 3 200 {"RoutingControl":{"ControlPanelArn":"arn:arc:panel/0000000000000001","Name":"i","RoutingControlArn":"arn:arc:control/0000000000000003"}}
slot 3 token 4 200 {"RoutingControl":{"ControlPanelArn":"arn:arc:panel/0000000000000001","Name":"t","RoutingControlArn":"arn:arc:control/0000000000000004"}}
slot 4 token 5 200 {"SafetyRuleArn":"arn:arc:rule/0000000000000001"}
slot 5 token 6 200 {}
slot 6 token 7 409 {"Reason":"Forbidden","Rules":[{"Cause":"GateClosed","SafetyRuleArn":"arn:arc:rule/0000000000000001"}],"__type":"ConflictException"}
slot 7 token 8 200 {}
slot 8 token 9 409 {"Reason":"Forbidden","Rules":[{"Cause":"GateClosed","SafetyRuleArn":"arn:arc:rule/0000000000000001"}],"__type":"ConflictException"}
slot 9 token 10 200 {}
slot 10 token 11 409 {"Reason":"Forbidden","Rules":[{"Cause":"GateClosed","SafetyRuleArn":"arn:arc:rule/0000000000000001"}],"__type":"ConflictException"}
slot 11 token 12 200 {}
slot 12 token 13 200 {}
slot 13 token 14 200 {}
slot 14 token 15 409 {"Reason":"Forbidden","Rules":[{"Cause":"GateClosed","SafetyRuleArn":"arn:arc:rule/0000000000000001"}],"__type":"ConflictException"}
slot 15 token 16 200 {}
slot 16 token 17 200 {}
slot 17 token 18 200 {}
slot 18 token 19 200 {}
slot 19 token 20 200 {}
slot 20 token 21 200 {}

== a gate with !ATLEAST:2 is open in these of eight states
new 0 0 0 g
new 0 0 0 h
new 0 0 0 i
new 0 0 0 t
gate 0 0 0 r !ATLEAST:2 0 1,2,3 4
batch 0 0 0 1=Off,2=Off,3=Off -
set 0 0 0 4 On
batch 0 0 0 1=Off,2=Off,3=On -
set 0 0 0 4 Off
batch 0 0 0 1=Off,2=On,3=Off -
set 0 0 0 4 On
batch 0 0 0 1=Off,2=On,3=On -
set 0 0 0 4 Off
batch 0 0 0 1=On,2=Off,3=Off -
set 0 0 0 4 Off
batch 0 0 0 1=On,2=Off,3=On -
set 0 0 0 4 On
batch 0 0 0 1=On,2=On,3=Off -
set 0 0 0 4 On
batch 0 0 0 1=On,2=On,3=On -
set 0 0 0 4 On
----
slot 0 token 1 200 {"RoutingControl":{"ControlPanelArn":"arn:arc:panel/0000000000000001","Name":"g","RoutingControlArn":"arn:arc:control/0000000000000001"}}
slot 1 token 2 200 {"RoutingControl":{"ControlPanelArn":"arn:arc:panel/0000000000000001","Name":"h","RoutingControlArn":"arn:arc:control/0000000000000002"}}
slot 2 token 3 200 {"RoutingControl":{"ControlPanelArn":"arn:arc:panel/0000000000000001","Name":"i","RoutingControlArn":"arn:arc:control/0000000000000003"}}
slot 3 token 4 200 {"RoutingControl":{"ControlPanelArn":"arn:arc:panel/0000000000000001","Name":"t","RoutingControlArn":"arn:arc:control/0000000000000004"}}
slot 4 token 5 200 {"SafetyRuleArn":"arn:arc:rule/0000000000000001"}
slot 5 token 6 200 {}
slot 6 token 7 200 {}
slot 7 token 8 200 {}
slot 8 token 9 200 {}
slot 9 token 10 200 {}
slot 10 token 11 200 {}
slot 11 token 12 200 {}
slot 12 token 13 409 {"Reason":"Forbidden","Rules":[{"Cause":"GateClosed","SafetyRuleArn":"arn:arc:rule/0000000000000001"}],"__type":"ConflictException"}
slot 13 token 14 200 {}
slot 14 token 15 200 {}
slot 15 token 16 200 {}
slot 16 token 17 409 {"Reason":"Forbidden","Rules":[{"Cause":"GateClosed","SafetyRuleArn":"arn:arc:rule/0000000000000001"}],"__type":"ConflictException"}
slot 17 token 18 200 {}
slot 18 token 19 409 {"Reason":"Forbidden","Rules":[{"Cause":"GateClosed","SafetyRuleArn":"arn:arc:rule/0000000000000001"}],"__type":"ConflictException"}
slot 19 token 20 200 {}
slot 20 token 21 409 {"Reason":"Forbidden","Rules":[{"Cause":"GateClosed","SafetyRuleArn":"arn:arc:rule/0000000000000001"}],"__type":"ConflictException"}
