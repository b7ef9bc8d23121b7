# Safety rules: how they are made, listed, changed and deleted.

== rules of both kinds are made and listed
new 0 0 0 a
new 0 0 0 b
assert 0 0 0 one-on ATLEAST:1 0 1,2
gate 0 0 0 guard AND 60000 1 2
call 0 0 0 ListSafetyRules {"ControlPanelArn":"arn:arc:panel/0000000000000001"}
----
slot 0 token 1 200 {"RoutingControl":{"ControlPanelArn":"arn:arc:panel/0000000000000001","Name":"a","RoutingControlArn":"arn:arc:control/0000000000000001"}}
slot 1 token 2 200 {"RoutingControl":{"ControlPanelArn":"arn:arc:panel/0000000000000001","Name":"b","RoutingControlArn":"arn:arc:control/0000000000000002"}}
slot 2 token 3 200 {"SafetyRuleArn":"arn:arc:rule/0000000000000001"}
slot 3 token 4 200 {"SafetyRuleArn":"arn:arc:rule/0000000000000002"}
slot 4 token 5 200 {"SafetyRules":[{"Name":"one-on","SafetyRuleArn":"arn:arc:rule/0000000000000001","Type":"ASSERTION","WaitPeriodMs":0},{"Name":"guard","SafetyRuleArn":"arn:arc:rule/0000000000000002","Type":"GATING","WaitPeriodMs":60000}]}

== rules are made by their operation
new 0 0 0 a
new 0 0 0 b
call 0 0 0 CreateSafetyRule {"AssertionRule":{"Name":"one-off","ControlPanelArn":"arn:arc:panel/0000000000000001","AssertedControls":["arn:arc:control/0000000000000001","arn:arc:control/0000000000000002"],"RuleConfig":{"Type":"ATLEAST","Threshold":2,"Inverted":true},"WaitPeriodMs":5}}
call 0 0 0 CreateSafetyRule {"GatingRule":{"Name":"guard","ControlPanelArn":"arn:arc:panel/0000000000000001","GatingControls":["arn:arc:control/0000000000000001"],"TargetControls":["arn:arc:control/0000000000000002"],"RuleConfig":{"Type":"OR"},"WaitPeriodMs":0}}
call 0 0 0 ListSafetyRules {"ControlPanelArn":"arn:arc:panel/0000000000000001"}
set 0 0 0 2 On
set 0 0 0 1 On
set 0 5 0 2 On
----
slot 0 token 1 200 {"RoutingControl":{"ControlPanelArn":"arn:arc:panel/0000000000000001","Name":"a","RoutingControlArn":"arn:arc:control/0000000000000001"}}
slot 1 token 2 200 {"RoutingControl":{"ControlPanelArn":"arn:arc:panel/0000000000000001","Name":"b","RoutingControlArn":"arn:arc:control/0000000000000002"}}
slot 2 token 3 200 {"SafetyRuleArn":"arn:arc:rule/0000000000000001"}
slot 3 token 4 200 {"SafetyRuleArn":"arn:arc:rule/0000000000000002"}
slot 4 token 5 200 {"SafetyRules":[{"Name":"one-off","SafetyRuleArn":"arn:arc:rule/0000000000000001","Type":"ASSERTION","WaitPeriodMs":5},{"Name":"guard","SafetyRuleArn":"arn:arc:rule/0000000000000002","Type":"GATING","WaitPeriodMs":0}]}
slot 5 token 6 409 {"Reason":"Forbidden","Rules":[{"Cause":"GateClosed","SafetyRuleArn":"arn:arc:rule/0000000000000002"}],"__type":"ConflictException"}
slot 6 token 7 200 {}
slot 7 token 8 409 {"Reason":"Forbidden","Rules":[{"Cause":"AssertFalse","SafetyRuleArn":"arn:arc:rule/0000000000000001"}],"__type":"ConflictException"}

== no rule stands in a panel at first
call 0 0 0 CreateControlPanel {"ControlPanelName":"ops"}
call 0 0 0 ListSafetyRules {"ControlPanelArn":"arn:arc:panel/0000000000000001"}
call 0 0 0 ListSafetyRules {"ControlPanelArn":"arn:arc:panel/0000000000000002"}
----
slot 0 token 1 200 {"ControlPanel":{"ControlPanelArn":"arn:arc:panel/0000000000000002","Name":"ops"}}
slot 1 token 2 200 {"SafetyRules":[]}
slot 2 token 3 200 {"SafetyRules":[]}

== rules of all panels are numbered in one row, and listed by panel
call 0 0 0 CreateControlPanel {"ControlPanelName":"ops"}
new 0 0 0 a
call 0 0 0 CreateRoutingControl {"RoutingControlName":"x","ControlPanelArn":"arn:arc:panel/0000000000000002"}
call 0 0 0 CreateSafetyRule {"AssertionRule":{"Name":"r","ControlPanelArn":"arn:arc:panel/0000000000000002","AssertedControls":["arn:arc:control/0000000000000002"],"RuleConfig":{"Type":"OR"},"WaitPeriodMs":0}}
assert 0 0 0 s OR 0 1
call 0 0 0 CreateSafetyRule {"GatingRule":{"Name":"q","ControlPanelArn":"arn:arc:panel/0000000000000002","GatingControls":["arn:arc:control/0000000000000002"],"TargetControls":["arn:arc:control/0000000000000002"],"RuleConfig":{"Type":"OR"},"WaitPeriodMs":0}}
call 0 0 0 ListSafetyRules {"ControlPanelArn":"arn:arc:panel/0000000000000002"}
call 0 0 0 ListSafetyRules {"ControlPanelArn":"arn:arc:panel/0000000000000001"}
----
slot 0 token 1 200 {"ControlPanel":{"ControlPanelArn":"arn:arc:panel/0000000000000002","Name":"ops"}}
slot 1 token 2 200 {"RoutingControl":{"ControlPanelArn":"arn:arc:panel/0000000000000001","Name":"a","RoutingControlArn":"arn:arc:control/0000000000000001"}}
slot 2 token 3 200 {"RoutingControl":{"ControlPanelArn":"arn:arc:panel/0000000000000002","Name":"x","RoutingControlArn":"arn:arc:control/0000000000000002"}}
slot 3 token 4 200 {"SafetyRuleArn":"arn:arc:rule/0000000000000001"}
slot 4 token 5 200 {"SafetyRuleArn":"arn:arc:rule/0000000000000002"}
slot 5 token 6 200 {"SafetyRuleArn":"arn:arc:rule/0000000000000003"}
slot 6 token 7 200 {"SafetyRules":[{"Name":"r","SafetyRuleArn":"arn:arc:rule/0000000000000001","Type":"ASSERTION","WaitPeriodMs":0},{"Name":"q","SafetyRuleArn":"arn:arc:rule/0000000000000003","Type":"GATING","WaitPeriodMs":0}]}
slot 7 token 8 200 {"SafetyRules":[{"Name":"s","SafetyRuleArn":"arn:arc:rule/0000000000000002","Type":"ASSERTION","WaitPeriodMs":0}]}

== the rules of a panel that isn't there aren't listed
call 0 0 0 ListSafetyRules {"ControlPanelArn":"arn:arc:panel/0000000000000002"}
----
slot 0 token 1 404 {"Reason":"NotFound","Resource":"arn:arc:panel/0000000000000002","__type":"ResourceNotFoundException"}

== a rule isn't made in a panel that isn't there
new 0 0 0 a
call 0 0 0 CreateSafetyRule {"AssertionRule":{"Name":"r","ControlPanelArn":"arn:arc:panel/0000000000000002","AssertedControls":["arn:arc:control/0000000000000001"],"RuleConfig":{"Type":"OR"},"WaitPeriodMs":0}}
call 0 0 0 CreateSafetyRule {"GatingRule":{"Name":"r","ControlPanelArn":"arn:arc:panel/0000000000000002","GatingControls":["arn:arc:control/0000000000000001"],"TargetControls":["arn:arc:control/0000000000000001"],"RuleConfig":{"Type":"OR"},"WaitPeriodMs":0}}
----
slot 0 token 1 200 {"RoutingControl":{"ControlPanelArn":"arn:arc:panel/0000000000000001","Name":"a","RoutingControlArn":"arn:arc:control/0000000000000001"}}
slot 1 token 2 404 {"Reason":"NotFound","Resource":"arn:arc:panel/0000000000000002","__type":"ResourceNotFoundException"}
slot 2 token 3 404 {"Reason":"NotFound","Resource":"arn:arc:panel/0000000000000002","__type":"ResourceNotFoundException"}

== an unknown panel is told before an unknown control
call 0 0 0 CreateSafetyRule {"AssertionRule":{"Name":"r","ControlPanelArn":"arn:arc:panel/0000000000000002","AssertedControls":["arn:arc:control/0000000000000007"],"RuleConfig":{"Type":"OR"},"WaitPeriodMs":0}}
----
slot 0 token 1 404 {"Reason":"NotFound","Resource":"arn:arc:panel/0000000000000002","__type":"ResourceNotFoundException"}

== an assertion names its first control that isn't there
new 0 0 0 a
assert 0 0 0 r OR 0 1,9,8
----
slot 0 token 1 200 {"RoutingControl":{"ControlPanelArn":"arn:arc:panel/0000000000000001","Name":"a","RoutingControlArn":"arn:arc:control/0000000000000001"}}
slot 1 token 2 404 {"Reason":"NotFound","Resource":"arn:arc:control/0000000000000009","__type":"ResourceNotFoundException"}

== a control of another panel isn't there
call 0 0 0 CreateControlPanel {"ControlPanelName":"ops"}
new 0 0 0 a
call 0 0 0 CreateRoutingControl {"RoutingControlName":"x","ControlPanelArn":"arn:arc:panel/0000000000000002"}
assert 0 0 0 r OR 0 1,2
call 0 0 0 CreateSafetyRule {"AssertionRule":{"Name":"r","ControlPanelArn":"arn:arc:panel/0000000000000002","AssertedControls":["arn:arc:control/0000000000000002","arn:arc:control/0000000000000001"],"RuleConfig":{"Type":"OR"},"WaitPeriodMs":0}}
gate 0 0 0 r OR 0 1 2
----
slot 0 token 1 200 {"ControlPanel":{"ControlPanelArn":"arn:arc:panel/0000000000000002","Name":"ops"}}
slot 1 token 2 200 {"RoutingControl":{"ControlPanelArn":"arn:arc:panel/0000000000000001","Name":"a","RoutingControlArn":"arn:arc:control/0000000000000001"}}
slot 2 token 3 200 {"RoutingControl":{"ControlPanelArn":"arn:arc:panel/0000000000000002","Name":"x","RoutingControlArn":"arn:arc:control/0000000000000002"}}
slot 3 token 4 404 {"Reason":"NotFound","Resource":"arn:arc:control/0000000000000002","__type":"ResourceNotFoundException"}
slot 4 token 5 404 {"Reason":"NotFound","Resource":"arn:arc:control/0000000000000001","__type":"ResourceNotFoundException"}
slot 5 token 6 404 {"Reason":"NotFound","Resource":"arn:arc:control/0000000000000002","__type":"ResourceNotFoundException"}

== a gate names its first control that isn't there, gating ones before targets
new 0 0 0 a
gate 0 0 0 r OR 0 1,9 8
gate 0 0 0 r OR 0 1 8,1,7
----
slot 0 token 1 200 {"RoutingControl":{"ControlPanelArn":"arn:arc:panel/0000000000000001","Name":"a","RoutingControlArn":"arn:arc:control/0000000000000001"}}
slot 1 token 2 404 {"Reason":"NotFound","Resource":"arn:arc:control/0000000000000009","__type":"ResourceNotFoundException"}
slot 2 token 3 404 {"Reason":"NotFound","Resource":"arn:arc:control/0000000000000008","__type":"ResourceNotFoundException"}

== a deleted control takes no rule
new 0 0 0 a
call 0 0 0 DeleteRoutingControl {"RoutingControlArn":"arn:arc:control/0000000000000001"}
assert 0 0 0 r OR 0 1
----
slot 0 token 1 200 {"RoutingControl":{"ControlPanelArn":"arn:arc:panel/0000000000000001","Name":"a","RoutingControlArn":"arn:arc:control/0000000000000001"}}
slot 1 token 2 200 {}
slot 2 token 3 404 {"Reason":"NotFound","Resource":"arn:arc:control/0000000000000001","__type":"ResourceNotFoundException"}

== the name of a rule is taken in its panel, by rules of either kind
call 0 0 0 CreateControlPanel {"ControlPanelName":"ops"}
new 0 0 0 a
call 0 0 0 CreateRoutingControl {"RoutingControlName":"x","ControlPanelArn":"arn:arc:panel/0000000000000002"}
assert 0 0 0 r OR 0 1
assert 0 0 0 r AND 0 1
gate 0 0 0 r OR 0 1 1
call 0 0 0 CreateSafetyRule {"AssertionRule":{"Name":"r","ControlPanelArn":"arn:arc:panel/0000000000000002","AssertedControls":["arn:arc:control/0000000000000002"],"RuleConfig":{"Type":"OR"},"WaitPeriodMs":0}}
call 0 0 0 CreateSafetyRule {"GatingRule":{"Name":"r","ControlPanelArn":"arn:arc:panel/0000000000000002","GatingControls":["arn:arc:control/0000000000000002"],"TargetControls":["arn:arc:control/0000000000000002"],"RuleConfig":{"Type":"OR"},"WaitPeriodMs":0}}
----
slot 0 token 1 200 {"ControlPanel":{"ControlPanelArn":"arn:arc:panel/0000000000000002","Name":"ops"}}
slot 1 token 2 200 {"RoutingControl":{"ControlPanelArn":"arn:arc:panel/0000000000000001","Name":"a","RoutingControlArn":"arn:arc:control/0000000000000001"}}
slot 2 token 3 200 {"RoutingControl":{"ControlPanelArn":"arn:arc:panel/0000000000000002","Name":"x","RoutingControlArn":"arn:arc:control/0000000000000002"}}
slot 3 token 4 200 {"SafetyRuleArn":"arn:arc:rule/0000000000000001"}
slot 4 token 5 409 {"Reason":"NameTaken","Resource":"arn:arc:rule/0000000000000001","__type":"ConflictException"}
slot 5 token 6 409 {"Reason":"NameTaken","Resource":"arn:arc:rule/0000000000000001","__type":"ConflictException"}
slot 6 token 7 200 {"SafetyRuleArn":"arn:arc:rule/0000000000000002"}
slot 7 token 8 409 {"Reason":"NameTaken","Resource":"arn:arc:rule/0000000000000002","__type":"ConflictException"}

== a rule may have the name of a control or panel
call 0 0 0 CreateControlPanel {"ControlPanelName":"r"}
new 0 0 0 r
assert 0 0 0 r OR 0 1
----
slot 0 token 1 200 {"ControlPanel":{"ControlPanelArn":"arn:arc:panel/0000000000000002","Name":"r"}}
slot 1 token 2 200 {"RoutingControl":{"ControlPanelArn":"arn:arc:panel/0000000000000001","Name":"r","RoutingControlArn":"arn:arc:control/0000000000000001"}}
slot 2 token 3 200 {"SafetyRuleArn":"arn:arc:rule/0000000000000001"}

== an unknown control is told before a taken name
new 0 0 0 a
assert 0 0 0 r OR 0 1
assert 0 0 0 r OR 0 2
----
slot 0 token 1 200 {"RoutingControl":{"ControlPanelArn":"arn:arc:panel/0000000000000001","Name":"a","RoutingControlArn":"arn:arc:control/0000000000000001"}}
slot 1 token 2 200 {"SafetyRuleArn":"arn:arc:rule/0000000000000001"}
slot 2 token 3 404 {"Reason":"NotFound","Resource":"arn:arc:control/0000000000000002","__type":"ResourceNotFoundException"}

== a refused rule draws no number and forbids nothing
new 0 0 0 a
assert 0 0 0 r OR 0 1
assert 0 0 0 r !OR 0 1
assert 0 0 0 s !OR 0 2
set 0 0 0 1 On
assert 0 0 0 s OR 0 1
----
slot 0 token 1 200 {"RoutingControl":{"ControlPanelArn":"arn:arc:panel/0000000000000001","Name":"a","RoutingControlArn":"arn:arc:control/0000000000000001"}}
slot 1 token 2 200 {"SafetyRuleArn":"arn:arc:rule/0000000000000001"}
slot 2 token 3 409 {"Reason":"NameTaken","Resource":"arn:arc:rule/0000000000000001","__type":"ConflictException"}
slot 3 token 4 404 {"Reason":"NotFound","Resource":"arn:arc:control/0000000000000002","__type":"ResourceNotFoundException"}
slot 4 token 5 200 {}
slot 5 token 6 200 {"SafetyRuleArn":"arn:arc:rule/0000000000000002"}

== the making of a rule changes no switch
new 0 0 0 a
assert 0 0 0 on AND 0 1
get 0 0 0 1
----
slot 0 token 1 200 {"RoutingControl":{"ControlPanelArn":"arn:arc:panel/0000000000000001","Name":"a","RoutingControlArn":"arn:arc:control/0000000000000001"}}
slot 1 token 2 200 {"SafetyRuleArn":"arn:arc:rule/0000000000000001"}
slot 2 token 3 200 {"RoutingControlArn":"arn:arc:control/0000000000000001","RoutingControlName":"a","RoutingControlState":"Off"}

== one control may be in several rules, and as gating control and target of one gate
new 0 0 0 a
assert 0 0 0 r OR 0 1
assert 0 0 0 s OR 0 1
gate 0 0 0 t OR 0 1 1
----
slot 0 token 1 200 {"RoutingControl":{"ControlPanelArn":"arn:arc:panel/0000000000000001","Name":"a","RoutingControlArn":"arn:arc:control/0000000000000001"}}
slot 1 token 2 200 {"SafetyRuleArn":"arn:arc:rule/0000000000000001"}
slot 2 token 3 200 {"SafetyRuleArn":"arn:arc:rule/0000000000000002"}
slot 3 token 4 200 {"SafetyRuleArn":"arn:arc:rule/0000000000000003"}

== a rule gets another name and another wait
new 0 0 0 a
assert 0 0 0 r OR 0 1
gate 0 0 0 s OR 7 1 1
call 0 0 0 UpdateSafetyRule {"AssertionRuleUpdate":{"SafetyRuleArn":"arn:arc:rule/0000000000000001","Name":"one","WaitPeriodMs":5}}
call 0 0 0 UpdateSafetyRule {"GatingRuleUpdate":{"SafetyRuleArn":"arn:arc:rule/0000000000000002","Name":"renamed","WaitPeriodMs":9}}
call 0 0 0 ListSafetyRules {"ControlPanelArn":"arn:arc:panel/0000000000000001"}
----
slot 0 token 1 200 {"RoutingControl":{"ControlPanelArn":"arn:arc:panel/0000000000000001","Name":"a","RoutingControlArn":"arn:arc:control/0000000000000001"}}
slot 1 token 2 200 {"SafetyRuleArn":"arn:arc:rule/0000000000000001"}
slot 2 token 3 200 {"SafetyRuleArn":"arn:arc:rule/0000000000000002"}
slot 3 token 4 200 {}
slot 4 token 5 200 {}
slot 5 token 6 200 {"SafetyRules":[{"Name":"one","SafetyRuleArn":"arn:arc:rule/0000000000000001","Type":"ASSERTION","WaitPeriodMs":5},{"Name":"renamed","SafetyRuleArn":"arn:arc:rule/0000000000000002","Type":"GATING","WaitPeriodMs":9}]}

== a rule may keep its name
new 0 0 0 a
assert 0 0 0 r OR 0 1
call 0 0 0 UpdateSafetyRule {"AssertionRuleUpdate":{"SafetyRuleArn":"arn:arc:rule/0000000000000001","Name":"r","WaitPeriodMs":5}}
call 0 0 0 ListSafetyRules {"ControlPanelArn":"arn:arc:panel/0000000000000001"}
----
slot 0 token 1 200 {"RoutingControl":{"ControlPanelArn":"arn:arc:panel/0000000000000001","Name":"a","RoutingControlArn":"arn:arc:control/0000000000000001"}}
slot 1 token 2 200 {"SafetyRuleArn":"arn:arc:rule/0000000000000001"}
slot 2 token 3 200 {}
slot 3 token 4 200 {"SafetyRules":[{"Name":"r","SafetyRuleArn":"arn:arc:rule/0000000000000001","Type":"ASSERTION","WaitPeriodMs":5}]}

== a renamed rule stands at its place in the list
new 0 0 0 a
assert 0 0 0 a OR 0 1
assert 0 0 0 b OR 0 1
call 0 0 0 UpdateSafetyRule {"AssertionRuleUpdate":{"SafetyRuleArn":"arn:arc:rule/0000000000000001","Name":"z","WaitPeriodMs":0}}
call 0 0 0 ListSafetyRules {"ControlPanelArn":"arn:arc:panel/0000000000000001"}
----
slot 0 token 1 200 {"RoutingControl":{"ControlPanelArn":"arn:arc:panel/0000000000000001","Name":"a","RoutingControlArn":"arn:arc:control/0000000000000001"}}
slot 1 token 2 200 {"SafetyRuleArn":"arn:arc:rule/0000000000000001"}
slot 2 token 3 200 {"SafetyRuleArn":"arn:arc:rule/0000000000000002"}
slot 3 token 4 200 {}
slot 4 token 5 200 {"SafetyRules":[{"Name":"z","SafetyRuleArn":"arn:arc:rule/0000000000000001","Type":"ASSERTION","WaitPeriodMs":0},{"Name":"b","SafetyRuleArn":"arn:arc:rule/0000000000000002","Type":"ASSERTION","WaitPeriodMs":0}]}

== a rule is updated as what it is
new 0 0 0 a
assert 0 0 0 r OR 0 1
gate 0 0 0 s OR 0 1 1
call 0 0 0 UpdateSafetyRule {"GatingRuleUpdate":{"SafetyRuleArn":"arn:arc:rule/0000000000000001","Name":"x","WaitPeriodMs":5}}
call 0 0 0 UpdateSafetyRule {"AssertionRuleUpdate":{"SafetyRuleArn":"arn:arc:rule/0000000000000002","Name":"x","WaitPeriodMs":5}}
call 0 0 0 ListSafetyRules {"ControlPanelArn":"arn:arc:panel/0000000000000001"}
----
slot 0 token 1 200 {"RoutingControl":{"ControlPanelArn":"arn:arc:panel/0000000000000001","Name":"a","RoutingControlArn":"arn:arc:control/0000000000000001"}}
slot 1 token 2 200 {"SafetyRuleArn":"arn:arc:rule/0000000000000001"}
slot 2 token 3 200 {"SafetyRuleArn":"arn:arc:rule/0000000000000002"}
slot 3 token 4 404 {"Reason":"NotFound","Resource":"arn:arc:rule/0000000000000001","__type":"ResourceNotFoundException"}
slot 4 token 5 404 {"Reason":"NotFound","Resource":"arn:arc:rule/0000000000000002","__type":"ResourceNotFoundException"}
slot 5 token 6 200 {"SafetyRules":[{"Name":"r","SafetyRuleArn":"arn:arc:rule/0000000000000001","Type":"ASSERTION","WaitPeriodMs":0},{"Name":"s","SafetyRuleArn":"arn:arc:rule/0000000000000002","Type":"GATING","WaitPeriodMs":0}]}

== a rule that isn't there isn't updated
call 0 0 0 UpdateSafetyRule {"AssertionRuleUpdate":{"SafetyRuleArn":"arn:arc:rule/0000000000000001","Name":"r","WaitPeriodMs":0}}
call 0 0 0 UpdateSafetyRule {"GatingRuleUpdate":{"SafetyRuleArn":"arn:arc:rule/0000000000000001","Name":"r","WaitPeriodMs":0}}
----
slot 0 token 1 404 {"Reason":"NotFound","Resource":"arn:arc:rule/0000000000000001","__type":"ResourceNotFoundException"}
slot 1 token 2 404 {"Reason":"NotFound","Resource":"arn:arc:rule/0000000000000001","__type":"ResourceNotFoundException"}

== a rule doesn't get the name of another of its panel
new 0 0 0 a
assert 0 0 0 r OR 0 1
gate 0 0 0 s OR 0 1 1
call 0 0 0 UpdateSafetyRule {"AssertionRuleUpdate":{"SafetyRuleArn":"arn:arc:rule/0000000000000001","Name":"s","WaitPeriodMs":5}}
call 0 0 0 UpdateSafetyRule {"GatingRuleUpdate":{"SafetyRuleArn":"arn:arc:rule/0000000000000002","Name":"r","WaitPeriodMs":5}}
call 0 0 0 ListSafetyRules {"ControlPanelArn":"arn:arc:panel/0000000000000001"}
----
slot 0 token 1 200 {"RoutingControl":{"ControlPanelArn":"arn:arc:panel/0000000000000001","Name":"a","RoutingControlArn":"arn:arc:control/0000000000000001"}}
slot 1 token 2 200 {"SafetyRuleArn":"arn:arc:rule/0000000000000001"}
slot 2 token 3 200 {"SafetyRuleArn":"arn:arc:rule/0000000000000002"}
slot 3 token 4 409 {"Reason":"NameTaken","Resource":"arn:arc:rule/0000000000000002","__type":"ConflictException"}
slot 4 token 5 409 {"Reason":"NameTaken","Resource":"arn:arc:rule/0000000000000001","__type":"ConflictException"}
slot 5 token 6 200 {"SafetyRules":[{"Name":"r","SafetyRuleArn":"arn:arc:rule/0000000000000001","Type":"ASSERTION","WaitPeriodMs":0},{"Name":"s","SafetyRuleArn":"arn:arc:rule/0000000000000002","Type":"GATING","WaitPeriodMs":0}]}

== an unknown rule is told before a taken name
new 0 0 0 a
assert 0 0 0 r OR 0 1
assert 0 0 0 s OR 0 1
call 0 0 0 UpdateSafetyRule {"AssertionRuleUpdate":{"SafetyRuleArn":"arn:arc:rule/0000000000000009","Name":"r","WaitPeriodMs":5}}
call 0 0 0 UpdateSafetyRule {"GatingRuleUpdate":{"SafetyRuleArn":"arn:arc:rule/0000000000000002","Name":"r","WaitPeriodMs":5}}
----
slot 0 token 1 200 {"RoutingControl":{"ControlPanelArn":"arn:arc:panel/0000000000000001","Name":"a","RoutingControlArn":"arn:arc:control/0000000000000001"}}
slot 1 token 2 200 {"SafetyRuleArn":"arn:arc:rule/0000000000000001"}
slot 2 token 3 200 {"SafetyRuleArn":"arn:arc:rule/0000000000000002"}
slot 3 token 4 404 {"Reason":"NotFound","Resource":"arn:arc:rule/0000000000000009","__type":"ResourceNotFoundException"}
slot 4 token 5 404 {"Reason":"NotFound","Resource":"arn:arc:rule/0000000000000002","__type":"ResourceNotFoundException"}

== a rule may get the name of a rule in another panel
call 0 0 0 CreateControlPanel {"ControlPanelName":"ops"}
new 0 0 0 a
call 0 0 0 CreateRoutingControl {"RoutingControlName":"x","ControlPanelArn":"arn:arc:panel/0000000000000002"}
assert 0 0 0 r OR 0 1
call 0 0 0 CreateSafetyRule {"AssertionRule":{"Name":"s","ControlPanelArn":"arn:arc:panel/0000000000000002","AssertedControls":["arn:arc:control/0000000000000002"],"RuleConfig":{"Type":"OR"},"WaitPeriodMs":0}}
call 0 0 0 UpdateSafetyRule {"AssertionRuleUpdate":{"SafetyRuleArn":"arn:arc:rule/0000000000000002","Name":"r","WaitPeriodMs":0}}
call 0 0 0 CreateSafetyRule {"AssertionRule":{"Name":"s","ControlPanelArn":"arn:arc:panel/0000000000000002","AssertedControls":["arn:arc:control/0000000000000002"],"RuleConfig":{"Type":"OR"},"WaitPeriodMs":0}}
call 0 0 0 UpdateSafetyRule {"AssertionRuleUpdate":{"SafetyRuleArn":"arn:arc:rule/0000000000000003","Name":"r","WaitPeriodMs":0}}
call 0 0 0 ListSafetyRules {"ControlPanelArn":"arn:arc:panel/0000000000000002"}
----
slot 0 token 1 200 {"ControlPanel":{"ControlPanelArn":"arn:arc:panel/0000000000000002","Name":"ops"}}
slot 1 token 2 200 {"RoutingControl":{"ControlPanelArn":"arn:arc:panel/0000000000000001","Name":"a","RoutingControlArn":"arn:arc:control/0000000000000001"}}
slot 2 token 3 200 {"RoutingControl":{"ControlPanelArn":"arn:arc:panel/0000000000000002","Name":"x","RoutingControlArn":"arn:arc:control/0000000000000002"}}
slot 3 token 4 200 {"SafetyRuleArn":"arn:arc:rule/0000000000000001"}
slot 4 token 5 200 {"SafetyRuleArn":"arn:arc:rule/0000000000000002"}
slot 5 token 6 200 {}
slot 6 token 7 200 {"SafetyRuleArn":"arn:arc:rule/0000000000000003"}
slot 7 token 8 409 {"Reason":"NameTaken","Resource":"arn:arc:rule/0000000000000002","__type":"ConflictException"}
slot 8 token 9 200 {"SafetyRules":[{"Name":"r","SafetyRuleArn":"arn:arc:rule/0000000000000002","Type":"ASSERTION","WaitPeriodMs":0},{"Name":"s","SafetyRuleArn":"arn:arc:rule/0000000000000003","Type":"ASSERTION","WaitPeriodMs":0}]}

== the old name of a renamed rule is free
new 0 0 0 a
assert 0 0 0 r OR 0 1
call 0 0 0 UpdateSafetyRule {"AssertionRuleUpdate":{"SafetyRuleArn":"arn:arc:rule/0000000000000001","Name":"s","WaitPeriodMs":0}}
assert 0 0 0 s OR 0 1
assert 0 0 0 r OR 0 1
----
slot 0 token 1 200 {"RoutingControl":{"ControlPanelArn":"arn:arc:panel/0000000000000001","Name":"a","RoutingControlArn":"arn:arc:control/0000000000000001"}}
slot 1 token 2 200 {"SafetyRuleArn":"arn:arc:rule/0000000000000001"}
slot 2 token 3 200 {}
slot 3 token 4 409 {"Reason":"NameTaken","Resource":"arn:arc:rule/0000000000000001","__type":"ConflictException"}
slot 4 token 5 200 {"SafetyRuleArn":"arn:arc:rule/0000000000000002"}

== a renamed rule forbids what it forbade
new 0 0 0 a
assert 0 0 0 r !OR 0 1
call 0 0 0 UpdateSafetyRule {"AssertionRuleUpdate":{"SafetyRuleArn":"arn:arc:rule/0000000000000001","Name":"s","WaitPeriodMs":0}}
set 0 0 0 1 On
----
slot 0 token 1 200 {"RoutingControl":{"ControlPanelArn":"arn:arc:panel/0000000000000001","Name":"a","RoutingControlArn":"arn:arc:control/0000000000000001"}}
slot 1 token 2 200 {"SafetyRuleArn":"arn:arc:rule/0000000000000001"}
slot 2 token 3 200 {}
slot 3 token 4 409 {"Reason":"Forbidden","Rules":[{"Cause":"AssertFalse","SafetyRuleArn":"arn:arc:rule/0000000000000001"}],"__type":"ConflictException"}

== a deleted rule forbids nothing
new 0 0 0 g
new 0 0 0 t
gate 0 0 0 closed AND 0 1 2
assert 0 0 0 off !OR 0 2
set 0 0 0 2 On
call 0 0 0 DeleteSafetyRule {"SafetyRuleArn":"arn:arc:rule/0000000000000001"}
set 0 0 0 2 On
call 0 0 0 DeleteSafetyRule {"SafetyRuleArn":"arn:arc:rule/0000000000000002"}
set 0 0 0 2 On
call 0 0 0 ListSafetyRules {"ControlPanelArn":"arn:arc:panel/0000000000000001"}
----
slot 0 token 1 200 {"RoutingControl":{"ControlPanelArn":"arn:arc:panel/0000000000000001","Name":"g","RoutingControlArn":"arn:arc:control/0000000000000001"}}
slot 1 token 2 200 {"RoutingControl":{"ControlPanelArn":"arn:arc:panel/0000000000000001","Name":"t","RoutingControlArn":"arn:arc:control/0000000000000002"}}
slot 2 token 3 200 {"SafetyRuleArn":"arn:arc:rule/0000000000000001"}
slot 3 token 4 200 {"SafetyRuleArn":"arn:arc:rule/0000000000000002"}
slot 4 token 5 409 {"Reason":"Forbidden","Rules":[{"Cause":"GateClosed","SafetyRuleArn":"arn:arc:rule/0000000000000001"},{"Cause":"AssertFalse","SafetyRuleArn":"arn:arc:rule/0000000000000002"}],"__type":"ConflictException"}
slot 5 token 6 200 {}
slot 6 token 7 409 {"Reason":"Forbidden","Rules":[{"Cause":"AssertFalse","SafetyRuleArn":"arn:arc:rule/0000000000000002"}],"__type":"ConflictException"}
slot 7 token 8 200 {}
slot 8 token 9 200 {}
slot 9 token 10 200 {"SafetyRules":[]}

== a rule is deleted once
new 0 0 0 a
call 0 0 0 DeleteSafetyRule {"SafetyRuleArn":"arn:arc:rule/0000000000000001"}
assert 0 0 0 r OR 0 1
call 0 0 0 DeleteSafetyRule {"SafetyRuleArn":"arn:arc:rule/0000000000000001"}
call 0 0 0 DeleteSafetyRule {"SafetyRuleArn":"arn:arc:rule/0000000000000001"}
call 0 0 0 UpdateSafetyRule {"AssertionRuleUpdate":{"SafetyRuleArn":"arn:arc:rule/0000000000000001","Name":"r","WaitPeriodMs":0}}
----
slot 0 token 1 200 {"RoutingControl":{"ControlPanelArn":"arn:arc:panel/0000000000000001","Name":"a","RoutingControlArn":"arn:arc:control/0000000000000001"}}
slot 1 token 2 404 {"Reason":"NotFound","Resource":"arn:arc:rule/0000000000000001","__type":"ResourceNotFoundException"}
slot 2 token 3 200 {"SafetyRuleArn":"arn:arc:rule/0000000000000001"}
slot 3 token 4 200 {}
slot 4 token 5 404 {"Reason":"NotFound","Resource":"arn:arc:rule/0000000000000001","__type":"ResourceNotFoundException"}
slot 5 token 6 404 {"Reason":"NotFound","Resource":"arn:arc:rule/0000000000000001","__type":"ResourceNotFoundException"}

== the number of a deleted rule isn't drawn again, and its name is free
new 0 0 0 a
assert 0 0 0 r OR 0 1
call 0 0 0 DeleteSafetyRule {"SafetyRuleArn":"arn:arc:rule/0000000000000001"}
assert 0 0 0 r OR 0 1
call 0 0 0 ListSafetyRules {"ControlPanelArn":"arn:arc:panel/0000000000000001"}
----
slot 0 token 1 200 {"RoutingControl":{"ControlPanelArn":"arn:arc:panel/0000000000000001","Name":"a","RoutingControlArn":"arn:arc:control/0000000000000001"}}
slot 1 token 2 200 {"SafetyRuleArn":"arn:arc:rule/0000000000000001"}
slot 2 token 3 200 {}
slot 3 token 4 200 {"SafetyRuleArn":"arn:arc:rule/0000000000000002"}
slot 4 token 5 200 {"SafetyRules":[{"Name":"r","SafetyRuleArn":"arn:arc:rule/0000000000000002","Type":"ASSERTION","WaitPeriodMs":0}]}

== a deleted rule leaves the waits of the others
new 0 0 0 a
new 0 0 0 b
assert 0 0 0 first OR 100 1,2
assert 0 0 0 second OR 100 1,2
set 0 0 0 1 On
call 0 0 0 DeleteSafetyRule {"SafetyRuleArn":"arn:arc:rule/0000000000000001"}
set 0 99 0 2 On
----
slot 0 token 1 200 {"RoutingControl":{"ControlPanelArn":"arn:arc:panel/0000000000000001","Name":"a","RoutingControlArn":"arn:arc:control/0000000000000001"}}
slot 1 token 2 200 {"RoutingControl":{"ControlPanelArn":"arn:arc:panel/0000000000000001","Name":"b","RoutingControlArn":"arn:arc:control/0000000000000002"}}
slot 2 token 3 200 {"SafetyRuleArn":"arn:arc:rule/0000000000000001"}
slot 3 token 4 200 {"SafetyRuleArn":"arn:arc:rule/0000000000000002"}
slot 4 token 5 200 {}
slot 5 token 6 200 {}
slot 6 token 7 409 {"Reason":"Forbidden","Rules":[{"Cause":"Waiting","SafetyRuleArn":"arn:arc:rule/0000000000000002","Until":100}],"__type":"ConflictException"}
