# Control panels: controls with one set of names and one set of rules.

== a panel is made, and gets the number behind the default panel
call 0 0 0 CreateControlPanel {"ControlPanelName":"ops"}
call 0 0 0 CreateControlPanel {"ControlPanelName":"shop"}
----
slot 0 token 1 200 {"ControlPanel":{"ControlPanelArn":"arn:arc:panel/0000000000000002","Name":"ops"}}
slot 1 token 2 200 {"ControlPanel":{"ControlPanelArn":"arn:arc:panel/0000000000000003","Name":"shop"}}

== the default panel is there from the start
call 0 0 0 ListRoutingControls {"ControlPanelArn":"arn:arc:panel/0000000000000001"}
call 0 0 0 ListSafetyRules {"ControlPanelArn":"arn:arc:panel/0000000000000001"}
----
slot 0 token 1 200 {"RoutingControls":[]}
slot 1 token 2 200 {"SafetyRules":[]}

== a new panel has no controls and no rules
call 0 0 0 CreateControlPanel {"ControlPanelName":"ops"}
new 0 0 0 a
assert 0 0 0 r OR 0 1
call 0 0 0 ListRoutingControls {"ControlPanelArn":"arn:arc:panel/0000000000000002"}
call 0 0 0 ListSafetyRules {"ControlPanelArn":"arn:arc:panel/0000000000000002"}
----
slot 0 token 1 200 {"ControlPanel":{"ControlPanelArn":"arn:arc:panel/0000000000000002","Name":"ops"}}
slot 1 token 2 200 {"RoutingControl":{"ControlPanelArn":"arn:arc:panel/0000000000000001","Name":"a","RoutingControlArn":"arn:arc:control/0000000000000001"}}
slot 2 token 3 200 {"SafetyRuleArn":"arn:arc:rule/0000000000000001"}
slot 3 token 4 200 {"RoutingControls":[]}
slot 4 token 5 200 {"SafetyRules":[]}

== the name of a panel is taken once
call 0 0 0 CreateControlPanel {"ControlPanelName":"ops"}
call 0 0 0 CreateControlPanel {"ControlPanelName":"ops"}
call 0 0 0 CreateControlPanel {"ControlPanelName":"Ops"}
----
slot 0 token 1 200 {"ControlPanel":{"ControlPanelArn":"arn:arc:panel/0000000000000002","Name":"ops"}}
slot 1 token 2 409 {"Reason":"NameTaken","Resource":"arn:arc:panel/0000000000000002","__type":"ConflictException"}
slot 2 token 3 200 {"ControlPanel":{"ControlPanelArn":"arn:arc:panel/0000000000000003","Name":"Ops"}}

== the default panel has a name too
call 0 0 0 CreateControlPanel {"ControlPanelName":"DefaultControlPanel"}
----
slot 0 token 1 409 {"Reason":"NameTaken","Resource":"arn:arc:panel/0000000000000001","__type":"ConflictException"}

== a panel and a control may have one name
call 0 0 0 CreateControlPanel {"ControlPanelName":"a"}
new 0 0 0 a
----
slot 0 token 1 200 {"ControlPanel":{"ControlPanelArn":"arn:arc:panel/0000000000000002","Name":"a"}}
slot 1 token 2 200 {"RoutingControl":{"ControlPanelArn":"arn:arc:panel/0000000000000001","Name":"a","RoutingControlArn":"arn:arc:control/0000000000000001"}}

== a refused panel draws no number
call 0 0 0 CreateControlPanel {"ControlPanelName":"ops"}
call 0 0 0 CreateControlPanel {"ControlPanelName":"ops"}
call 0 0 0 CreateControlPanel {"ControlPanelName":"shop"}
----
slot 0 token 1 200 {"ControlPanel":{"ControlPanelArn":"arn:arc:panel/0000000000000002","Name":"ops"}}
slot 1 token 2 409 {"Reason":"NameTaken","Resource":"arn:arc:panel/0000000000000002","__type":"ConflictException"}
slot 2 token 3 200 {"ControlPanel":{"ControlPanelArn":"arn:arc:panel/0000000000000003","Name":"shop"}}

== a panel that isn't there isn't deleted
call 0 0 0 DeleteControlPanel {"ControlPanelArn":"arn:arc:panel/0000000000000002"}
call 0 0 0 DeleteControlPanel {"ControlPanelArn":"arn:arc:panel/0000000000000000"}
----
slot 0 token 1 404 {"Reason":"NotFound","Resource":"arn:arc:panel/0000000000000002","__type":"ResourceNotFoundException"}
slot 1 token 2 404 {"Reason":"NotFound","Resource":"arn:arc:panel/0000000000000000","__type":"ResourceNotFoundException"}

== an empty panel is deleted, once
call 0 0 0 CreateControlPanel {"ControlPanelName":"ops"}
call 0 0 0 DeleteControlPanel {"ControlPanelArn":"arn:arc:panel/0000000000000002"}
call 0 0 0 DeleteControlPanel {"ControlPanelArn":"arn:arc:panel/0000000000000002"}
----
slot 0 token 1 200 {"ControlPanel":{"ControlPanelArn":"arn:arc:panel/0000000000000002","Name":"ops"}}
slot 1 token 2 200 {}
slot 2 token 3 404 {"Reason":"NotFound","Resource":"arn:arc:panel/0000000000000002","__type":"ResourceNotFoundException"}

== the default panel stays, empty or not, and names itself
call 0 0 0 DeleteControlPanel {"ControlPanelArn":"arn:arc:panel/0000000000000001"}
new 0 0 0 a
call 0 0 0 DeleteControlPanel {"ControlPanelArn":"arn:arc:panel/0000000000000001"}
----
slot 0 token 1 409 {"Reason":"InUse","Resource":"arn:arc:panel/0000000000000001","__type":"ConflictException"}
slot 1 token 2 200 {"RoutingControl":{"ControlPanelArn":"arn:arc:panel/0000000000000001","Name":"a","RoutingControlArn":"arn:arc:control/0000000000000001"}}
slot 2 token 3 409 {"Reason":"InUse","Resource":"arn:arc:panel/0000000000000001","__type":"ConflictException"}

== a panel with controls stays, and names the first of them
call 0 0 0 CreateControlPanel {"ControlPanelName":"ops"}
new 0 0 0 elsewhere
call 0 0 0 CreateRoutingControl {"RoutingControlName":"x","ControlPanelArn":"arn:arc:panel/0000000000000002"}
call 0 0 0 CreateRoutingControl {"RoutingControlName":"y","ControlPanelArn":"arn:arc:panel/0000000000000002"}
call 0 0 0 DeleteControlPanel {"ControlPanelArn":"arn:arc:panel/0000000000000002"}
call 0 0 0 DeleteRoutingControl {"RoutingControlArn":"arn:arc:control/0000000000000002"}
call 0 0 0 DeleteControlPanel {"ControlPanelArn":"arn:arc:panel/0000000000000002"}
call 0 0 0 DeleteRoutingControl {"RoutingControlArn":"arn:arc:control/0000000000000003"}
call 0 0 0 DeleteControlPanel {"ControlPanelArn":"arn:arc:panel/0000000000000002"}
----
slot 0 token 1 200 {"ControlPanel":{"ControlPanelArn":"arn:arc:panel/0000000000000002","Name":"ops"}}
slot 1 token 2 200 {"RoutingControl":{"ControlPanelArn":"arn:arc:panel/0000000000000001","Name":"elsewhere","RoutingControlArn":"arn:arc:control/0000000000000001"}}
slot 2 token 3 200 {"RoutingControl":{"ControlPanelArn":"arn:arc:panel/0000000000000002","Name":"x","RoutingControlArn":"arn:arc:control/0000000000000002"}}
slot 3 token 4 200 {"RoutingControl":{"ControlPanelArn":"arn:arc:panel/0000000000000002","Name":"y","RoutingControlArn":"arn:arc:control/0000000000000003"}}
slot 4 token 5 409 {"Reason":"InUse","Resource":"arn:arc:control/0000000000000002","__type":"ConflictException"}
slot 5 token 6 200 {}
slot 6 token 7 409 {"Reason":"InUse","Resource":"arn:arc:control/0000000000000003","__type":"ConflictException"}
slot 7 token 8 200 {}
slot 8 token 9 200 {}

== the number of a deleted panel isn't drawn again, and its name is free
call 0 0 0 CreateControlPanel {"ControlPanelName":"ops"}
call 0 0 0 DeleteControlPanel {"ControlPanelArn":"arn:arc:panel/0000000000000002"}
call 0 0 0 CreateControlPanel {"ControlPanelName":"ops"}
----
slot 0 token 1 200 {"ControlPanel":{"ControlPanelArn":"arn:arc:panel/0000000000000002","Name":"ops"}}
slot 1 token 2 200 {}
slot 2 token 3 200 {"ControlPanel":{"ControlPanelArn":"arn:arc:panel/0000000000000003","Name":"ops"}}

== a deleted panel takes no controls and no rules, and lists none
new 0 0 0 a
call 0 0 0 CreateControlPanel {"ControlPanelName":"ops"}
call 0 0 0 DeleteControlPanel {"ControlPanelArn":"arn:arc:panel/0000000000000002"}
call 0 0 0 CreateRoutingControl {"RoutingControlName":"x","ControlPanelArn":"arn:arc:panel/0000000000000002"}
call 0 0 0 CreateSafetyRule {"AssertionRule":{"Name":"r","ControlPanelArn":"arn:arc:panel/0000000000000002","AssertedControls":["arn:arc:control/0000000000000001"],"RuleConfig":{"Type":"OR"},"WaitPeriodMs":0}}
call 0 0 0 ListRoutingControls {"ControlPanelArn":"arn:arc:panel/0000000000000002"}
call 0 0 0 ListSafetyRules {"ControlPanelArn":"arn:arc:panel/0000000000000002"}
----
slot 0 token 1 200 {"RoutingControl":{"ControlPanelArn":"arn:arc:panel/0000000000000001","Name":"a","RoutingControlArn":"arn:arc:control/0000000000000001"}}
slot 1 token 2 200 {"ControlPanel":{"ControlPanelArn":"arn:arc:panel/0000000000000002","Name":"ops"}}
slot 2 token 3 200 {}
slot 3 token 4 404 {"Reason":"NotFound","Resource":"arn:arc:panel/0000000000000002","__type":"ResourceNotFoundException"}
slot 4 token 5 404 {"Reason":"NotFound","Resource":"arn:arc:panel/0000000000000002","__type":"ResourceNotFoundException"}
slot 5 token 6 404 {"Reason":"NotFound","Resource":"arn:arc:panel/0000000000000002","__type":"ResourceNotFoundException"}
slot 6 token 7 404 {"Reason":"NotFound","Resource":"arn:arc:panel/0000000000000002","__type":"ResourceNotFoundException"}

== a deleted panel leaves the others as they are
call 0 0 0 CreateControlPanel {"ControlPanelName":"ops"}
call 0 0 0 CreateControlPanel {"ControlPanelName":"shop"}
call 0 0 0 CreateRoutingControl {"RoutingControlName":"x","ControlPanelArn":"arn:arc:panel/0000000000000003"}
call 0 0 0 DeleteControlPanel {"ControlPanelArn":"arn:arc:panel/0000000000000002"}
call 0 0 0 ListRoutingControls {"ControlPanelArn":"arn:arc:panel/0000000000000003"}
call 0 0 0 ListRoutingControls
----
slot 0 token 1 200 {"ControlPanel":{"ControlPanelArn":"arn:arc:panel/0000000000000002","Name":"ops"}}
slot 1 token 2 200 {"ControlPanel":{"ControlPanelArn":"arn:arc:panel/0000000000000003","Name":"shop"}}
slot 2 token 3 200 {"RoutingControl":{"ControlPanelArn":"arn:arc:panel/0000000000000003","Name":"x","RoutingControlArn":"arn:arc:control/0000000000000001"}}
slot 3 token 4 200 {}
slot 4 token 5 200 {"RoutingControls":[{"ControlPanelArn":"arn:arc:panel/0000000000000003","RoutingControlArn":"arn:arc:control/0000000000000001","RoutingControlName":"x","RoutingControlState":"Off"}]}
slot 5 token 6 200 {"RoutingControls":[{"ControlPanelArn":"arn:arc:panel/0000000000000003","RoutingControlArn":"arn:arc:control/0000000000000001","RoutingControlName":"x","RoutingControlState":"Off"}]}
