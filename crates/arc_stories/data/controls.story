# Routing controls: switches that are made, read, listed and deleted.

== two switches are made, and one is set On and read back
new 0 1000 0 cell-a
new 0 1001 0 cell-b
set 0 1002 0 1 On
get 0 1003 3 1
----
slot 0 token 1 200 {"RoutingControl":{"ControlPanelArn":"arn:arc:panel/0000000000000001","Name":"cell-a","RoutingControlArn":"arn:arc:control/0000000000000001"}}
slot 1 token 2 200 {"RoutingControl":{"ControlPanelArn":"arn:arc:panel/0000000000000001","Name":"cell-b","RoutingControlArn":"arn:arc:control/0000000000000002"}}
slot 2 token 3 200 {}
slot 3 token 4 200 {"RoutingControlArn":"arn:arc:control/0000000000000001","RoutingControlName":"cell-a","RoutingControlState":"On"}

== a new control is Off
new 0 0 0 a
get 0 0 0 1
----
slot 0 token 1 200 {"RoutingControl":{"ControlPanelArn":"arn:arc:panel/0000000000000001","Name":"a","RoutingControlArn":"arn:arc:control/0000000000000001"}}
slot 1 token 2 200 {"RoutingControlArn":"arn:arc:control/0000000000000001","RoutingControlName":"a","RoutingControlState":"Off"}

== a control goes back to Off
new 0 0 0 a
set 0 1 0 1 On
set 0 2 0 1 Off
get 0 2 0 1
----
slot 0 token 1 200 {"RoutingControl":{"ControlPanelArn":"arn:arc:panel/0000000000000001","Name":"a","RoutingControlArn":"arn:arc:control/0000000000000001"}}
slot 1 token 2 200 {}
slot 2 token 3 200 {}
slot 3 token 4 200 {"RoutingControlArn":"arn:arc:control/0000000000000001","RoutingControlName":"a","RoutingControlState":"Off"}

== a control is made in the default panel where no panel is named
call 0 0 0 CreateRoutingControl {"RoutingControlName":"a"}
call 0 0 0 CreateRoutingControl {"RoutingControlName":"b","ControlPanelArn":"arn:arc:panel/0000000000000001"}
----
slot 0 token 1 200 {"RoutingControl":{"ControlPanelArn":"arn:arc:panel/0000000000000001","Name":"a","RoutingControlArn":"arn:arc:control/0000000000000001"}}
slot 1 token 2 200 {"RoutingControl":{"ControlPanelArn":"arn:arc:panel/0000000000000001","Name":"b","RoutingControlArn":"arn:arc:control/0000000000000002"}}

== controls of all panels are numbered in one row
call 0 0 0 CreateControlPanel {"ControlPanelName":"ops"}
new 0 0 0 a
call 0 0 0 CreateRoutingControl {"RoutingControlName":"b","ControlPanelArn":"arn:arc:panel/0000000000000002"}
new 0 0 0 c
----
slot 0 token 1 200 {"ControlPanel":{"ControlPanelArn":"arn:arc:panel/0000000000000002","Name":"ops"}}
slot 1 token 2 200 {"RoutingControl":{"ControlPanelArn":"arn:arc:panel/0000000000000001","Name":"a","RoutingControlArn":"arn:arc:control/0000000000000001"}}
slot 2 token 3 200 {"RoutingControl":{"ControlPanelArn":"arn:arc:panel/0000000000000002","Name":"b","RoutingControlArn":"arn:arc:control/0000000000000002"}}
slot 3 token 4 200 {"RoutingControl":{"ControlPanelArn":"arn:arc:panel/0000000000000001","Name":"c","RoutingControlArn":"arn:arc:control/0000000000000003"}}

== a control isn't made in a panel that isn't there
call 0 0 0 CreateRoutingControl {"RoutingControlName":"a","ControlPanelArn":"arn:arc:panel/0000000000000002"}
new 0 0 0 a
----
slot 0 token 1 404 {"Reason":"NotFound","Resource":"arn:arc:panel/0000000000000002","__type":"ResourceNotFoundException"}
slot 1 token 2 200 {"RoutingControl":{"ControlPanelArn":"arn:arc:panel/0000000000000001","Name":"a","RoutingControlArn":"arn:arc:control/0000000000000001"}}

== a name is taken in its panel alone
call 0 0 0 CreateControlPanel {"ControlPanelName":"ops"}
new 0 0 0 x
new 0 0 0 x
call 0 0 0 CreateRoutingControl {"RoutingControlName":"x","ControlPanelArn":"arn:arc:panel/0000000000000002"}
call 0 0 0 CreateRoutingControl {"RoutingControlName":"x","ControlPanelArn":"arn:arc:panel/0000000000000002"}
----
slot 0 token 1 200 {"ControlPanel":{"ControlPanelArn":"arn:arc:panel/0000000000000002","Name":"ops"}}
slot 1 token 2 200 {"RoutingControl":{"ControlPanelArn":"arn:arc:panel/0000000000000001","Name":"x","RoutingControlArn":"arn:arc:control/0000000000000001"}}
slot 2 token 3 409 {"Reason":"NameTaken","Resource":"arn:arc:control/0000000000000001","__type":"ConflictException"}
slot 3 token 4 200 {"RoutingControl":{"ControlPanelArn":"arn:arc:panel/0000000000000002","Name":"x","RoutingControlArn":"arn:arc:control/0000000000000002"}}
slot 4 token 5 409 {"Reason":"NameTaken","Resource":"arn:arc:control/0000000000000002","__type":"ConflictException"}

== a taken name names its holder among several
new 0 0 0 a
new 0 0 0 b
new 0 0 0 c
new 0 0 0 b
----
slot 0 token 1 200 {"RoutingControl":{"ControlPanelArn":"arn:arc:panel/0000000000000001","Name":"a","RoutingControlArn":"arn:arc:control/0000000000000001"}}
slot 1 token 2 200 {"RoutingControl":{"ControlPanelArn":"arn:arc:panel/0000000000000001","Name":"b","RoutingControlArn":"arn:arc:control/0000000000000002"}}
slot 2 token 3 200 {"RoutingControl":{"ControlPanelArn":"arn:arc:panel/0000000000000001","Name":"c","RoutingControlArn":"arn:arc:control/0000000000000003"}}
slot 3 token 4 409 {"Reason":"NameTaken","Resource":"arn:arc:control/0000000000000002","__type":"ConflictException"}

== a name differs by every byte
new 0 0 0 cell-a
new 0 0 0 Cell-a
new 0 0 0 cell-a.
new 0 0 0 cell
----
slot 0 token 1 200 {"RoutingControl":{"ControlPanelArn":"arn:arc:panel/0000000000000001","Name":"cell-a","RoutingControlArn":"arn:arc:control/0000000000000001"}}
slot 1 token 2 200 {"RoutingControl":{"ControlPanelArn":"arn:arc:panel/0000000000000001","Name":"Cell-a","RoutingControlArn":"arn:arc:control/0000000000000002"}}
slot 2 token 3 200 {"RoutingControl":{"ControlPanelArn":"arn:arc:panel/0000000000000001","Name":"cell-a.","RoutingControlArn":"arn:arc:control/0000000000000003"}}
slot 3 token 4 200 {"RoutingControl":{"ControlPanelArn":"arn:arc:panel/0000000000000001","Name":"cell","RoutingControlArn":"arn:arc:control/0000000000000004"}}

== an unknown panel is told before a name that is taken elsewhere
new 0 0 0 a
call 0 0 0 CreateRoutingControl {"RoutingControlName":"a","ControlPanelArn":"arn:arc:panel/0000000000000009"}
----
slot 0 token 1 200 {"RoutingControl":{"ControlPanelArn":"arn:arc:panel/0000000000000001","Name":"a","RoutingControlArn":"arn:arc:control/0000000000000001"}}
slot 1 token 2 404 {"Reason":"NotFound","Resource":"arn:arc:panel/0000000000000009","__type":"ResourceNotFoundException"}

== a refused creation draws no identifier
new 0 0 0 a
new 0 0 0 a
call 0 0 0 CreateRoutingControl {"RoutingControlName":"b","ControlPanelArn":"arn:arc:panel/0000000000000009"}
new 0 0 0 b
----
slot 0 token 1 200 {"RoutingControl":{"ControlPanelArn":"arn:arc:panel/0000000000000001","Name":"a","RoutingControlArn":"arn:arc:control/0000000000000001"}}
slot 1 token 2 409 {"Reason":"NameTaken","Resource":"arn:arc:control/0000000000000001","__type":"ConflictException"}
slot 2 token 3 404 {"Reason":"NotFound","Resource":"arn:arc:panel/0000000000000009","__type":"ResourceNotFoundException"}
slot 3 token 4 200 {"RoutingControl":{"ControlPanelArn":"arn:arc:panel/0000000000000001","Name":"b","RoutingControlArn":"arn:arc:control/0000000000000002"}}

== no control stands in the list at first
call 0 0 0 ListRoutingControls
call 0 0 0 ListRoutingControls {"ControlPanelArn":"arn:arc:panel/0000000000000001"}
----
slot 0 token 1 200 {"RoutingControls":[]}
slot 1 token 2 200 {"RoutingControls":[]}

== the controls of one panel are listed
call 0 0 0 CreateControlPanel {"ControlPanelName":"ops"}
call 0 0 0 CreateRoutingControl {"RoutingControlName":"x","ControlPanelArn":"arn:arc:panel/0000000000000002"}
new 0 0 0 a
call 0 0 0 CreateRoutingControl {"RoutingControlName":"y","ControlPanelArn":"arn:arc:panel/0000000000000002"}
set 0 0 0 3 On
call 0 0 0 ListRoutingControls {"ControlPanelArn":"arn:arc:panel/0000000000000002"}
call 0 0 0 ListRoutingControls {"ControlPanelArn":"arn:arc:panel/0000000000000001"}
----
slot 0 token 1 200 {"ControlPanel":{"ControlPanelArn":"arn:arc:panel/0000000000000002","Name":"ops"}}
slot 1 token 2 200 {"RoutingControl":{"ControlPanelArn":"arn:arc:panel/0000000000000002","Name":"x","RoutingControlArn":"arn:arc:control/0000000000000001"}}
slot 2 token 3 200 {"RoutingControl":{"ControlPanelArn":"arn:arc:panel/0000000000000001","Name":"a","RoutingControlArn":"arn:arc:control/0000000000000002"}}
slot 3 token 4 200 {"RoutingControl":{"ControlPanelArn":"arn:arc:panel/0000000000000002","Name":"y","RoutingControlArn":"arn:arc:control/0000000000000003"}}
slot 4 token 5 200 {}
slot 5 token 6 200 {"RoutingControls":[{"ControlPanelArn":"arn:arc:panel/0000000000000002","RoutingControlArn":"arn:arc:control/0000000000000001","RoutingControlName":"x","RoutingControlState":"Off"},{"ControlPanelArn":"arn:arc:panel/0000000000000002","RoutingControlArn":"arn:arc:control/0000000000000003","RoutingControlName":"y","RoutingControlState":"On"}]}
slot 6 token 7 200 {"RoutingControls":[{"ControlPanelArn":"arn:arc:panel/0000000000000001","RoutingControlArn":"arn:arc:control/0000000000000002","RoutingControlName":"a","RoutingControlState":"Off"}]}

== the controls of all panels are listed by identifier, not by panel or name
call 0 0 0 CreateControlPanel {"ControlPanelName":"ops"}
call 0 0 0 CreateRoutingControl {"RoutingControlName":"z","ControlPanelArn":"arn:arc:panel/0000000000000002"}
new 0 0 0 y
call 0 0 0 CreateRoutingControl {"RoutingControlName":"x","ControlPanelArn":"arn:arc:panel/0000000000000002"}
call 0 0 0 ListRoutingControls
----
slot 0 token 1 200 {"ControlPanel":{"ControlPanelArn":"arn:arc:panel/0000000000000002","Name":"ops"}}
slot 1 token 2 200 {"RoutingControl":{"ControlPanelArn":"arn:arc:panel/0000000000000002","Name":"z","RoutingControlArn":"arn:arc:control/0000000000000001"}}
slot 2 token 3 200 {"RoutingControl":{"ControlPanelArn":"arn:arc:panel/0000000000000001","Name":"y","RoutingControlArn":"arn:arc:control/0000000000000002"}}
slot 3 token 4 200 {"RoutingControl":{"ControlPanelArn":"arn:arc:panel/0000000000000002","Name":"x","RoutingControlArn":"arn:arc:control/0000000000000003"}}
slot 4 token 5 200 {"RoutingControls":[{"ControlPanelArn":"arn:arc:panel/0000000000000002","RoutingControlArn":"arn:arc:control/0000000000000001","RoutingControlName":"z","RoutingControlState":"Off"},{"ControlPanelArn":"arn:arc:panel/0000000000000001","RoutingControlArn":"arn:arc:control/0000000000000002","RoutingControlName":"y","RoutingControlState":"Off"},{"ControlPanelArn":"arn:arc:panel/0000000000000002","RoutingControlArn":"arn:arc:control/0000000000000003","RoutingControlName":"x","RoutingControlState":"Off"}]}

== the list of a panel that isn't there is refused
call 0 0 0 ListRoutingControls {"ControlPanelArn":"arn:arc:panel/0000000000000002"}
----
slot 0 token 1 404 {"Reason":"NotFound","Resource":"arn:arc:panel/0000000000000002","__type":"ResourceNotFoundException"}

== a control that isn't there is neither read, set nor deleted
get 0 0 0 7
set 0 0 0 7 On
call 0 0 0 DeleteRoutingControl {"RoutingControlArn":"arn:arc:control/0000000000000007"}
----
slot 0 token 1 404 {"Reason":"NotFound","Resource":"arn:arc:control/0000000000000007","__type":"ResourceNotFoundException"}
slot 1 token 2 404 {"Reason":"NotFound","Resource":"arn:arc:control/0000000000000007","__type":"ResourceNotFoundException"}
slot 2 token 3 404 {"Reason":"NotFound","Resource":"arn:arc:control/0000000000000007","__type":"ResourceNotFoundException"}

== no control has the number 0
new 0 0 0 a
get 0 0 0 0
get 0 0 0 18446744073709551615
----
slot 0 token 1 200 {"RoutingControl":{"ControlPanelArn":"arn:arc:panel/0000000000000001","Name":"a","RoutingControlArn":"arn:arc:control/0000000000000001"}}
slot 1 token 2 404 {"Reason":"NotFound","Resource":"arn:arc:control/0000000000000000","__type":"ResourceNotFoundException"}
slot 2 token 3 404 {"Reason":"NotFound","Resource":"arn:arc:control/ffffffffffffffff","__type":"ResourceNotFoundException"}

== a deleted control is gone
new 0 0 0 a
new 0 0 0 b
call 0 0 0 DeleteRoutingControl {"RoutingControlArn":"arn:arc:control/0000000000000001"}
get 0 0 0 1
set 0 0 0 1 On
call 0 0 0 DeleteRoutingControl {"RoutingControlArn":"arn:arc:control/0000000000000001"}
call 0 0 0 ListRoutingControls
----
slot 0 token 1 200 {"RoutingControl":{"ControlPanelArn":"arn:arc:panel/0000000000000001","Name":"a","RoutingControlArn":"arn:arc:control/0000000000000001"}}
slot 1 token 2 200 {"RoutingControl":{"ControlPanelArn":"arn:arc:panel/0000000000000001","Name":"b","RoutingControlArn":"arn:arc:control/0000000000000002"}}
slot 2 token 3 200 {}
slot 3 token 4 404 {"Reason":"NotFound","Resource":"arn:arc:control/0000000000000001","__type":"ResourceNotFoundException"}
slot 4 token 5 404 {"Reason":"NotFound","Resource":"arn:arc:control/0000000000000001","__type":"ResourceNotFoundException"}
slot 5 token 6 404 {"Reason":"NotFound","Resource":"arn:arc:control/0000000000000001","__type":"ResourceNotFoundException"}
slot 6 token 7 200 {"RoutingControls":[{"ControlPanelArn":"arn:arc:panel/0000000000000001","RoutingControlArn":"arn:arc:control/0000000000000002","RoutingControlName":"b","RoutingControlState":"Off"}]}

== a control that is On may be deleted
new 0 0 0 a
set 0 0 0 1 On
call 0 0 0 DeleteRoutingControl {"RoutingControlArn":"arn:arc:control/0000000000000001"}
----
slot 0 token 1 200 {"RoutingControl":{"ControlPanelArn":"arn:arc:panel/0000000000000001","Name":"a","RoutingControlArn":"arn:arc:control/0000000000000001"}}
slot 1 token 2 200 {}
slot 2 token 3 200 {}

== an identifier isn't drawn again after a delete
new 0 0 0 a
call 0 0 0 DeleteRoutingControl {"RoutingControlArn":"arn:arc:control/0000000000000001"}
new 0 0 0 b
----
slot 0 token 1 200 {"RoutingControl":{"ControlPanelArn":"arn:arc:panel/0000000000000001","Name":"a","RoutingControlArn":"arn:arc:control/0000000000000001"}}
slot 1 token 2 200 {}
slot 2 token 3 200 {"RoutingControl":{"ControlPanelArn":"arn:arc:panel/0000000000000001","Name":"b","RoutingControlArn":"arn:arc:control/0000000000000002"}}

== the name of a deleted control is free, and the control that takes it is Off
new 0 0 0 a
set 0 0 0 1 On
call 0 0 0 DeleteRoutingControl {"RoutingControlArn":"arn:arc:control/0000000000000001"}
new 0 0 0 a
get 0 0 0 2
----
slot 0 token 1 200 {"RoutingControl":{"ControlPanelArn":"arn:arc:panel/0000000000000001","Name":"a","RoutingControlArn":"arn:arc:control/0000000000000001"}}
slot 1 token 2 200 {}
slot 2 token 3 200 {}
slot 3 token 4 200 {"RoutingControl":{"ControlPanelArn":"arn:arc:panel/0000000000000001","Name":"a","RoutingControlArn":"arn:arc:control/0000000000000002"}}
slot 4 token 5 200 {"RoutingControlArn":"arn:arc:control/0000000000000002","RoutingControlName":"a","RoutingControlState":"Off"}

== a control isn't deleted while an assertion names it
new 0 0 0 a
new 0 0 0 b
assert 0 0 0 r OR 0 2
call 0 0 0 DeleteRoutingControl {"RoutingControlArn":"arn:arc:control/0000000000000002"}
call 0 0 0 DeleteRoutingControl {"RoutingControlArn":"arn:arc:control/0000000000000001"}
----
slot 0 token 1 200 {"RoutingControl":{"ControlPanelArn":"arn:arc:panel/0000000000000001","Name":"a","RoutingControlArn":"arn:arc:control/0000000000000001"}}
slot 1 token 2 200 {"RoutingControl":{"ControlPanelArn":"arn:arc:panel/0000000000000001","Name":"b","RoutingControlArn":"arn:arc:control/0000000000000002"}}
slot 2 token 3 200 {"SafetyRuleArn":"arn:arc:rule/0000000000000001"}
slot 3 token 4 409 {"Reason":"InUse","Resource":"arn:arc:rule/0000000000000001","__type":"ConflictException"}
slot 4 token 5 200 {}

== a control isn't deleted while a gate names it, as gating or as target
new 0 0 0 g
new 0 0 0 t
gate 0 0 0 r AND 0 1 2
call 0 0 0 DeleteRoutingControl {"RoutingControlArn":"arn:arc:control/0000000000000001"}
call 0 0 0 DeleteRoutingControl {"RoutingControlArn":"arn:arc:control/0000000000000002"}
----
slot 0 token 1 200 {"RoutingControl":{"ControlPanelArn":"arn:arc:panel/0000000000000001","Name":"g","RoutingControlArn":"arn:arc:control/0000000000000001"}}
slot 1 token 2 200 {"RoutingControl":{"ControlPanelArn":"arn:arc:panel/0000000000000001","Name":"t","RoutingControlArn":"arn:arc:control/0000000000000002"}}
slot 2 token 3 200 {"SafetyRuleArn":"arn:arc:rule/0000000000000001"}
slot 3 token 4 409 {"Reason":"InUse","Resource":"arn:arc:rule/0000000000000001","__type":"ConflictException"}
slot 4 token 5 409 {"Reason":"InUse","Resource":"arn:arc:rule/0000000000000001","__type":"ConflictException"}

== a control in use names the first of its rules
new 0 0 0 a
new 0 0 0 b
assert 0 0 0 other OR 0 2
gate 0 0 0 first AND 0 2 1
assert 0 0 0 second OR 0 1
call 0 0 0 DeleteRoutingControl {"RoutingControlArn":"arn:arc:control/0000000000000001"}
call 0 0 0 DeleteSafetyRule {"SafetyRuleArn":"arn:arc:rule/0000000000000002"}
call 0 0 0 DeleteRoutingControl {"RoutingControlArn":"arn:arc:control/0000000000000001"}
call 0 0 0 DeleteSafetyRule {"SafetyRuleArn":"arn:arc:rule/0000000000000003"}
call 0 0 0 DeleteRoutingControl {"RoutingControlArn":"arn:arc:control/0000000000000001"}
----
slot 0 token 1 200 {"RoutingControl":{"ControlPanelArn":"arn:arc:panel/0000000000000001","Name":"a","RoutingControlArn":"arn:arc:control/0000000000000001"}}
slot 1 token 2 200 {"RoutingControl":{"ControlPanelArn":"arn:arc:panel/0000000000000001","Name":"b","RoutingControlArn":"arn:arc:control/0000000000000002"}}
slot 2 token 3 200 {"SafetyRuleArn":"arn:arc:rule/0000000000000001"}
slot 3 token 4 200 {"SafetyRuleArn":"arn:arc:rule/0000000000000002"}
slot 4 token 5 200 {"SafetyRuleArn":"arn:arc:rule/0000000000000003"}
slot 5 token 6 409 {"Reason":"InUse","Resource":"arn:arc:rule/0000000000000002","__type":"ConflictException"}
slot 6 token 7 200 {}
slot 7 token 8 409 {"Reason":"InUse","Resource":"arn:arc:rule/0000000000000003","__type":"ConflictException"}
slot 8 token 9 200 {}
slot 9 token 10 200 {}

== a deleted control leaves the states of the others
new 0 0 0 a
new 0 0 0 b
new 0 0 0 c
batch 0 0 0 1=On,3=On -
call 0 0 0 DeleteRoutingControl {"RoutingControlArn":"arn:arc:control/0000000000000002"}
call 0 0 0 ListRoutingControls
----
slot 0 token 1 200 {"RoutingControl":{"ControlPanelArn":"arn:arc:panel/0000000000000001","Name":"a","RoutingControlArn":"arn:arc:control/0000000000000001"}}
slot 1 token 2 200 {"RoutingControl":{"ControlPanelArn":"arn:arc:panel/0000000000000001","Name":"b","RoutingControlArn":"arn:arc:control/0000000000000002"}}
slot 2 token 3 200 {"RoutingControl":{"ControlPanelArn":"arn:arc:panel/0000000000000001","Name":"c","RoutingControlArn":"arn:arc:control/0000000000000003"}}
slot 3 token 4 200 {}
slot 4 token 5 200 {}
slot 5 token 6 200 {"RoutingControls":[{"ControlPanelArn":"arn:arc:panel/0000000000000001","RoutingControlArn":"arn:arc:control/0000000000000001","RoutingControlName":"a","RoutingControlState":"On"},{"ControlPanelArn":"arn:arc:panel/0000000000000001","RoutingControlArn":"arn:arc:control/0000000000000003","RoutingControlName":"c","RoutingControlState":"On"}]}

== what is refused changes no switch
new 0 0 0 cell-a
new 0 1 0 cell-a
set 0 4 0 7 On
get 0 5 0 1
----
slot 0 token 1 200 {"RoutingControl":{"ControlPanelArn":"arn:arc:panel/0000000000000001","Name":"cell-a","RoutingControlArn":"arn:arc:control/0000000000000001"}}
slot 1 token 2 409 {"Reason":"NameTaken","Resource":"arn:arc:control/0000000000000001","__type":"ConflictException"}
slot 2 token 3 404 {"Reason":"NotFound","Resource":"arn:arc:control/0000000000000007","__type":"ResourceNotFoundException"}
slot 3 token 4 200 {"RoutingControlArn":"arn:arc:control/0000000000000001","RoutingControlName":"cell-a","RoutingControlState":"Off"}
