# The bodies of panels, controls and their states.

== the name of a panel has up to 64 bytes
call 0 0 0 CreateControlPanel {"ControlPanelName":"xxxxxxxxxxxxxxxxxxxxxxxxxxxxxxxxxxxxxxxxxxxxxxxxxxxxxxxxxxxxxxxx"}
call 0 0 0 CreateControlPanel {"ControlPanelName":"üüüüüüüüüüüüüüüüüüüüüüüüüüüüüüüü"}
----
slot 0 token 1 200 {"ControlPanel":{"ControlPanelArn":"arn:arc:panel/0000000000000002","Name":"xxxxxxxxxxxxxxxxxxxxxxxxxxxxxxxxxxxxxxxxxxxxxxxxxxxxxxxxxxxxxxxx"}}
slot 1 token 2 200 {"ControlPanel":{"ControlPanelArn":"arn:arc:panel/0000000000000003","Name":"üüüüüüüüüüüüüüüüüüüüüüüüüüüüüüüü"}}

== a panel is made, listed and deleted
call 0 0 0 CreateControlPanel {"ControlPanelName":"ops"}
call 0 0 0 ListRoutingControls {"ControlPanelArn":"arn:arc:panel/0000000000000002"}
call 0 0 0 DeleteControlPanel {"ControlPanelArn":"arn:arc:panel/0000000000000002"}
call 0 0 0 ListRoutingControls {"ControlPanelArn":"arn:arc:panel/0000000000000002"}
----
slot 0 token 1 200 {"ControlPanel":{"ControlPanelArn":"arn:arc:panel/0000000000000002","Name":"ops"}}
slot 1 token 2 200 {"RoutingControls":[]}
slot 2 token 3 200 {}
slot 3 token 4 404 {"Reason":"NotFound","Resource":"arn:arc:panel/0000000000000002","__type":"ResourceNotFoundException"}

== a control is made in the panel that is given
call 0 0 0 CreateControlPanel {"ControlPanelName":"ops"}
call 0 0 0 CreateRoutingControl {"RoutingControlName":"cell-a","ControlPanelArn":"arn:arc:panel/0000000000000002"}
----
slot 0 token 1 200 {"ControlPanel":{"ControlPanelArn":"arn:arc:panel/0000000000000002","Name":"ops"}}
slot 1 token 2 200 {"RoutingControl":{"ControlPanelArn":"arn:arc:panel/0000000000000002","Name":"cell-a","RoutingControlArn":"arn:arc:control/0000000000000001"}}

== a control is made in panel 1 where none is given
call 0 0 0 CreateRoutingControl {"RoutingControlName":"a"}
call 0 0 0 CreateRoutingControl {"RoutingControlName":"b","ControlPanelArn":null}
----
slot 0 token 1 200 {"RoutingControl":{"ControlPanelArn":"arn:arc:panel/0000000000000001","Name":"a","RoutingControlArn":"arn:arc:control/0000000000000001"}}
slot 1 token 2 200 {"RoutingControl":{"ControlPanelArn":"arn:arc:panel/0000000000000001","Name":"b","RoutingControlArn":"arn:arc:control/0000000000000002"}}

== the controls of one panel, or of all where none is given
new 0 0 0 a
call 0 0 0 CreateControlPanel {"ControlPanelName":"ops"}
call 0 0 0 CreateRoutingControl {"RoutingControlName":"b","ControlPanelArn":"arn:arc:panel/0000000000000002"}
call 0 0 0 ListRoutingControls {"ControlPanelArn":"arn:arc:panel/0000000000000002"}
call 0 0 0 ListRoutingControls
----
slot 0 token 1 200 {"RoutingControl":{"ControlPanelArn":"arn:arc:panel/0000000000000001","Name":"a","RoutingControlArn":"arn:arc:control/0000000000000001"}}
slot 1 token 2 200 {"ControlPanel":{"ControlPanelArn":"arn:arc:panel/0000000000000002","Name":"ops"}}
slot 2 token 3 200 {"RoutingControl":{"ControlPanelArn":"arn:arc:panel/0000000000000002","Name":"b","RoutingControlArn":"arn:arc:control/0000000000000002"}}
slot 3 token 4 200 {"RoutingControls":[{"ControlPanelArn":"arn:arc:panel/0000000000000002","RoutingControlArn":"arn:arc:control/0000000000000002","RoutingControlName":"b","RoutingControlState":"Off"}]}
slot 4 token 5 200 {"RoutingControls":[{"ControlPanelArn":"arn:arc:panel/0000000000000001","RoutingControlArn":"arn:arc:control/0000000000000001","RoutingControlName":"a","RoutingControlState":"Off"},{"ControlPanelArn":"arn:arc:panel/0000000000000002","RoutingControlArn":"arn:arc:control/0000000000000002","RoutingControlName":"b","RoutingControlState":"Off"}]}

== a control is deleted and then not read
new 0 0 0 a
call 0 0 0 DeleteRoutingControl {"RoutingControlArn":"arn:arc:control/0000000000000001"}
call 0 0 0 GetRoutingControlState {"RoutingControlArn":"arn:arc:control/0000000000000001"}
----
slot 0 token 1 200 {"RoutingControl":{"ControlPanelArn":"arn:arc:panel/0000000000000001","Name":"a","RoutingControlArn":"arn:arc:control/0000000000000001"}}
slot 1 token 2 200 {}
slot 2 token 3 404 {"Reason":"NotFound","Resource":"arn:arc:control/0000000000000001","__type":"ResourceNotFoundException"}

== one control is set
new 0 0 0 a
call 0 0 0 UpdateRoutingControlState {"RoutingControlArn":"arn:arc:control/0000000000000001","RoutingControlState":"On"}
get 0 0 0 1
call 0 0 0 UpdateRoutingControlState {"RoutingControlArn":"arn:arc:control/0000000000000001","RoutingControlState":"Off"}
get 0 0 0 1
----
slot 0 token 1 200 {"RoutingControl":{"ControlPanelArn":"arn:arc:panel/0000000000000001","Name":"a","RoutingControlArn":"arn:arc:control/0000000000000001"}}
slot 1 token 2 200 {}
slot 2 token 3 200 {"RoutingControlArn":"arn:arc:control/0000000000000001","RoutingControlName":"a","RoutingControlState":"On"}
slot 3 token 4 200 {}
slot 4 token 5 200 {"RoutingControlArn":"arn:arc:control/0000000000000001","RoutingControlName":"a","RoutingControlState":"Off"}

== one control is set past the rules that are given
new 0 0 0 a
assert 0 0 0 r !OR 0 1
call 0 0 0 UpdateRoutingControlState {"RoutingControlArn":"arn:arc:control/0000000000000001","RoutingControlState":"On","SafetyRulesToOverride":null}
call 0 0 0 UpdateRoutingControlState {"RoutingControlArn":"arn:arc:control/0000000000000001","RoutingControlState":"On","SafetyRulesToOverride":["arn:arc:rule/0000000000000001"]}
----
slot 0 token 1 200 {"RoutingControl":{"ControlPanelArn":"arn:arc:panel/0000000000000001","Name":"a","RoutingControlArn":"arn:arc:control/0000000000000001"}}
slot 1 token 2 200 {"SafetyRuleArn":"arn:arc:rule/0000000000000001"}
slot 2 token 3 409 {"Reason":"Forbidden","Rules":[{"Cause":"AssertFalse","SafetyRuleArn":"arn:arc:rule/0000000000000001"}],"__type":"ConflictException"}
slot 3 token 4 200 {}

== several controls are set
new 0 0 0 a
new 0 0 0 b
set 0 0 0 2 On
call 0 0 0 UpdateRoutingControlStates {"UpdateRoutingControlStateEntries":[{"RoutingControlArn":"arn:arc:control/0000000000000001","RoutingControlState":"On"},{"RoutingControlArn":"arn:arc:control/0000000000000002","RoutingControlState":"Off"}]}
get 0 0 0 1
get 0 0 0 2
----
slot 0 token 1 200 {"RoutingControl":{"ControlPanelArn":"arn:arc:panel/0000000000000001","Name":"a","RoutingControlArn":"arn:arc:control/0000000000000001"}}
slot 1 token 2 200 {"RoutingControl":{"ControlPanelArn":"arn:arc:panel/0000000000000001","Name":"b","RoutingControlArn":"arn:arc:control/0000000000000002"}}
slot 2 token 3 200 {}
slot 3 token 4 200 {}
slot 4 token 5 200 {"RoutingControlArn":"arn:arc:control/0000000000000001","RoutingControlName":"a","RoutingControlState":"On"}
slot 5 token 6 200 {"RoutingControlArn":"arn:arc:control/0000000000000002","RoutingControlName":"b","RoutingControlState":"Off"}

== several controls are set past the rules that are given, which may repeat
new 0 0 0 a
assert 0 0 0 r !OR 0 1
call 0 0 0 UpdateRoutingControlStates {"UpdateRoutingControlStateEntries":[{"RoutingControlArn":"arn:arc:control/0000000000000001","RoutingControlState":"On"}],"SafetyRulesToOverride":[]}
call 0 0 0 UpdateRoutingControlStates {"UpdateRoutingControlStateEntries":[{"RoutingControlArn":"arn:arc:control/0000000000000001","RoutingControlState":"On"}],"SafetyRulesToOverride":["arn:arc:rule/0000000000000001","arn:arc:rule/0000000000000001"]}
----
slot 0 token 1 200 {"RoutingControl":{"ControlPanelArn":"arn:arc:panel/0000000000000001","Name":"a","RoutingControlArn":"arn:arc:control/0000000000000001"}}
slot 1 token 2 200 {"SafetyRuleArn":"arn:arc:rule/0000000000000001"}
slot 2 token 3 409 {"Reason":"Forbidden","Rules":[{"Cause":"AssertFalse","SafetyRuleArn":"arn:arc:rule/0000000000000001"}],"__type":"ConflictException"}
slot 3 token 4 200 {}

== overrides are null like absent
new 0 0 0 a
call 0 0 0 UpdateRoutingControlStates {"UpdateRoutingControlStateEntries":[{"RoutingControlArn":"arn:arc:control/0000000000000001","RoutingControlState":"On"}],"SafetyRulesToOverride":null}
----
slot 0 token 1 200 {"RoutingControl":{"ControlPanelArn":"arn:arc:panel/0000000000000001","Name":"a","RoutingControlArn":"arn:arc:control/0000000000000001"}}
slot 1 token 2 200 {}

== the largest batch as a body
call 0 0 0 UpdateRoutingControlStates {"UpdateRoutingControlStateEntries":[{"RoutingControlArn":"arn:arc:control/0000000000000001","RoutingControlState":"On"},{"RoutingControlArn":"arn:arc:control/0000000000000002","RoutingControlState":"On"},{"RoutingControlArn":"arn:arc:control/0000000000000003","RoutingControlState":"On"},{"RoutingControlArn":"arn:arc:control/0000000000000004","RoutingControlState":"On"},{"RoutingControlArn":"arn:arc:control/0000000000000005","RoutingControlState":"On"},{"RoutingControlArn":"arn:arc:control/0000000000000006","RoutingControlState":"On"},{"RoutingControlArn":"arn:arc:control/0000000000000007","RoutingControlState":"On"},{"RoutingControlArn":"arn:arc:control/0000000000000008","RoutingControlState":"On"},{"RoutingControlArn":"arn:arc:control/0000000000000009","RoutingControlState":"On"},{"RoutingControlArn":"arn:arc:control/000000000000000a","RoutingControlState":"On"},{"RoutingControlArn":"arn:arc:control/000000000000000b","RoutingControlState":"On"},{"RoutingControlArn":"arn:arc:control/000000000000000c","RoutingControlState":"On"},{"RoutingControlArn":"arn:arc:control/000000000000000d","RoutingControlState":"On"},{"RoutingControlArn":"arn:arc:control/000000000000000e","RoutingControlState":"On"},{"RoutingControlArn":"arn:arc:control/000000000000000f","RoutingControlState":"On"},{"RoutingControlArn":"arn:arc:control/0000000000000010","RoutingControlState":"On"}],"SafetyRulesToOverride":["arn:arc:rule/0000000000000001","arn:arc:rule/0000000000000002","arn:arc:rule/0000000000000003","arn:arc:rule/0000000000000004","arn:arc:rule/0000000000000005","arn:arc:rule/0000000000000006","arn:arc:rule/0000000000000007","arn:arc:rule/0000000000000008","arn:arc:rule/0000000000000009","arn:arc:rule/000000000000000a","arn:arc:rule/000000000000000b","arn:arc:rule/000000000000000c","arn:arc:rule/000000000000000d","arn:arc:rule/000000000000000e","arn:arc:rule/000000000000000f","arn:arc:rule/0000000000000010"]}
----
slot 0 token 1 404 {"Reason":"NotFound","Resource":"arn:arc:control/0000000000000001","__type":"ResourceNotFoundException"}

== CreateControlPanel without ControlPanelName
call 0 0 0 CreateControlPanel {}
---- status 6
script line 1: MissingMember

== CreateControlPanel with ControlPanelName that is a number
call 0 0 0 CreateControlPanel {"ControlPanelName":1}
---- status 6
script line 1: WrongType

== CreateControlPanel with ControlPanelName that is empty
call 0 0 0 CreateControlPanel {"ControlPanelName":""}
---- status 6
script line 1: BadName

== CreateControlPanel with ControlPanelName of 65 bytes
call 0 0 0 CreateControlPanel {"ControlPanelName":"xxxxxxxxxxxxxxxxxxxxxxxxxxxxxxxxxxxxxxxxxxxxxxxxxxxxxxxxxxxxxxxxx"}
---- status 6
script line 1: BadName

== DeleteControlPanel without ControlPanelArn
call 0 0 0 DeleteControlPanel {}
---- status 6
script line 1: MissingMember

== DeleteControlPanel with ControlPanelArn that is a number
call 0 0 0 DeleteControlPanel {"ControlPanelArn":1}
---- status 6
script line 1: WrongType

== DeleteControlPanel with ControlPanelArn of another kind
call 0 0 0 DeleteControlPanel {"ControlPanelArn":"arn:arc:control/0000000000000001"}
---- status 6
script line 1: BadId

== CreateRoutingControl without RoutingControlName
call 0 0 0 CreateRoutingControl {"ControlPanelArn":1}
---- status 6
script line 1: MissingMember

== CreateRoutingControl with RoutingControlName that is a number
call 0 0 0 CreateRoutingControl {"RoutingControlName":1,"ControlPanelArn":1}
---- status 6
script line 1: WrongType

== CreateRoutingControl with RoutingControlName that is empty
call 0 0 0 CreateRoutingControl {"RoutingControlName":"","ControlPanelArn":1}
---- status 6
script line 1: BadName

== CreateRoutingControl with RoutingControlName of 65 bytes
call 0 0 0 CreateRoutingControl {"RoutingControlName":"xxxxxxxxxxxxxxxxxxxxxxxxxxxxxxxxxxxxxxxxxxxxxxxxxxxxxxxxxxxxxxxxx","ControlPanelArn":1}
---- status 6
script line 1: BadName

== CreateRoutingControl with ControlPanelArn that is a number
call 0 0 0 CreateRoutingControl {"RoutingControlName":"a","ControlPanelArn":1}
---- status 6
script line 1: WrongType

== CreateRoutingControl with ControlPanelArn of another kind
call 0 0 0 CreateRoutingControl {"RoutingControlName":"a","ControlPanelArn":"arn:arc:rule/0000000000000001"}
---- status 6
script line 1: BadId

== DeleteRoutingControl without RoutingControlArn
call 0 0 0 DeleteRoutingControl {}
---- status 6
script line 1: MissingMember

== DeleteRoutingControl with RoutingControlArn that is a number
call 0 0 0 DeleteRoutingControl {"RoutingControlArn":1}
---- status 6
script line 1: WrongType

== DeleteRoutingControl with RoutingControlArn of another kind
call 0 0 0 DeleteRoutingControl {"RoutingControlArn":"arn:arc:panel/0000000000000001"}
---- status 6
script line 1: BadId

== ListRoutingControls with ControlPanelArn that is a number
call 0 0 0 ListRoutingControls {"ControlPanelArn":1}
---- status 6
script line 1: WrongType

== ListRoutingControls with ControlPanelArn of another kind
call 0 0 0 ListRoutingControls {"ControlPanelArn":"arn:arc:control/0000000000000001"}
---- status 6
script line 1: BadId

== GetRoutingControlState without RoutingControlArn
call 0 0 0 GetRoutingControlState {}
---- status 6
script line 1: MissingMember

== GetRoutingControlState with RoutingControlArn that is a number
call 0 0 0 GetRoutingControlState {"RoutingControlArn":1}
---- status 6
script line 1: WrongType

== GetRoutingControlState with RoutingControlArn of another kind
call 0 0 0 GetRoutingControlState {"RoutingControlArn":"arn:arc:rule/0000000000000001"}
---- status 6
script line 1: BadId

== UpdateRoutingControlState without RoutingControlArn
call 0 0 0 UpdateRoutingControlState {"RoutingControlState":1,"SafetyRulesToOverride":1}
---- status 6
script line 1: MissingMember

== UpdateRoutingControlState with RoutingControlArn that is a number
call 0 0 0 UpdateRoutingControlState {"RoutingControlArn":1,"RoutingControlState":1,"SafetyRulesToOverride":1}
---- status 6
script line 1: WrongType

== UpdateRoutingControlState with RoutingControlArn of another kind
call 0 0 0 UpdateRoutingControlState {"RoutingControlArn":"arn:arc:panel/0000000000000001","RoutingControlState":1,"SafetyRulesToOverride":1}
---- status 6
script line 1: BadId

== UpdateRoutingControlState without RoutingControlState
call 0 0 0 UpdateRoutingControlState {"RoutingControlArn":"arn:arc:control/0000000000000001","SafetyRulesToOverride":1}
---- status 6
script line 1: MissingMember

== UpdateRoutingControlState with RoutingControlState that is true
call 0 0 0 UpdateRoutingControlState {"RoutingControlArn":"arn:arc:control/0000000000000001","RoutingControlState":true,"SafetyRulesToOverride":1}
---- status 6
script line 1: WrongType

== UpdateRoutingControlState with RoutingControlState that is empty
call 0 0 0 UpdateRoutingControlState {"RoutingControlArn":"arn:arc:control/0000000000000001","RoutingControlState":"","SafetyRulesToOverride":1}
---- status 6
script line 1: BadState

== UpdateRoutingControlState with RoutingControlState in small letters
call 0 0 0 UpdateRoutingControlState {"RoutingControlArn":"arn:arc:control/0000000000000001","RoutingControlState":"on","SafetyRulesToOverride":1}
---- status 6
script line 1: BadState

== UpdateRoutingControlState with RoutingControlState in capital letters
call 0 0 0 UpdateRoutingControlState {"RoutingControlArn":"arn:arc:control/0000000000000001","RoutingControlState":"OFF","SafetyRulesToOverride":1}
---- status 6
script line 1: BadState

== UpdateRoutingControlState with RoutingControlState with a blank behind it
call 0 0 0 UpdateRoutingControlState {"RoutingControlArn":"arn:arc:control/0000000000000001","RoutingControlState":"On ","SafetyRulesToOverride":1}
---- status 6
script line 1: BadState

== UpdateRoutingControlState with SafetyRulesToOverride that are a number
call 0 0 0 UpdateRoutingControlState {"RoutingControlArn":"arn:arc:control/0000000000000001","RoutingControlState":"On","SafetyRulesToOverride":1}
---- status 6
script line 1: WrongType

== UpdateRoutingControlState with SafetyRulesToOverride that are an object
call 0 0 0 UpdateRoutingControlState {"RoutingControlArn":"arn:arc:control/0000000000000001","RoutingControlState":"On","SafetyRulesToOverride":{}}
---- status 6
script line 1: WrongType

== UpdateRoutingControlState with SafetyRulesToOverride of 17 items, whatever they are
call 0 0 0 UpdateRoutingControlState {"RoutingControlArn":"arn:arc:control/0000000000000001","RoutingControlState":"On","SafetyRulesToOverride":[1,1,1,1,1,1,1,1,1,1,1,1,1,1,1,1,1]}
---- status 6
script line 1: TooManyEntries

== UpdateRoutingControlState with SafetyRulesToOverride that hold null
call 0 0 0 UpdateRoutingControlState {"RoutingControlArn":"arn:arc:control/0000000000000001","RoutingControlState":"On","SafetyRulesToOverride":[null]}
---- status 6
script line 1: WrongType

== UpdateRoutingControlState with SafetyRulesToOverride that hold a number
call 0 0 0 UpdateRoutingControlState {"RoutingControlArn":"arn:arc:control/0000000000000001","RoutingControlState":"On","SafetyRulesToOverride":["arn:arc:rule/0000000000000001",1]}
---- status 6
script line 1: WrongType

== UpdateRoutingControlState with SafetyRulesToOverride that hold a control
call 0 0 0 UpdateRoutingControlState {"RoutingControlArn":"arn:arc:control/0000000000000001","RoutingControlState":"On","SafetyRulesToOverride":["arn:arc:control/0000000000000001"]}
---- status 6
script line 1: BadId

== a batch of no entries
call 0 0 0 UpdateRoutingControlStates {"UpdateRoutingControlStateEntries":[],"SafetyRulesToOverride":1}
---- status 6
script line 1: EmptyEntries

== a batch of 17 entries, whatever they are
call 0 0 0 UpdateRoutingControlStates {"UpdateRoutingControlStateEntries":[1,1,1,1,1,1,1,1,1,1,1,1,1,1,1,1,1],"SafetyRulesToOverride":1}
---- status 6
script line 1: TooManyEntries

== a batch of entries that are an object
call 0 0 0 UpdateRoutingControlStates {"UpdateRoutingControlStateEntries":{},"SafetyRulesToOverride":1}
---- status 6
script line 1: WrongType

== an entry that is a number
call 0 0 0 UpdateRoutingControlStates {"UpdateRoutingControlStateEntries":[1,1,1,1,1,1,1,1,1,1,1,1,1,1,1,1],"SafetyRulesToOverride":1}
---- status 6
script line 1: WrongType

== an entry that is null is of another type
call 0 0 0 UpdateRoutingControlStates {"UpdateRoutingControlStateEntries":[null],"SafetyRulesToOverride":1}
---- status 6
script line 1: WrongType

== an entry without a control
call 0 0 0 UpdateRoutingControlStates {"UpdateRoutingControlStateEntries":[{"RoutingControlState":"x"},1],"SafetyRulesToOverride":1}
---- status 6
script line 1: MissingMember

== an entry whose control is a number
call 0 0 0 UpdateRoutingControlStates {"UpdateRoutingControlStateEntries":[{"RoutingControlArn":1}],"SafetyRulesToOverride":1}
---- status 6
script line 1: WrongType

== an entry without a state
call 0 0 0 UpdateRoutingControlStates {"UpdateRoutingControlStateEntries":[{"RoutingControlArn":"arn:arc:control/0000000000000001"},1],"SafetyRulesToOverride":1}
---- status 6
script line 1: MissingMember

== an entry whose state is a switch
call 0 0 0 UpdateRoutingControlStates {"UpdateRoutingControlStateEntries":[{"RoutingControlArn":"arn:arc:control/0000000000000001","RoutingControlState":true},1],"SafetyRulesToOverride":1}
---- status 6
script line 1: WrongType

== an entry of a panel behind a good one
call 0 0 0 UpdateRoutingControlStates {"UpdateRoutingControlStateEntries":[{"RoutingControlArn":"arn:arc:control/0000000000000001","RoutingControlState":"On"},{"RoutingControlArn":"arn:arc:panel/0000000000000001"}],"SafetyRulesToOverride":1}
---- status 6
script line 1: BadId

== an entry's control is tested before its state
call 0 0 0 UpdateRoutingControlStates {"UpdateRoutingControlStateEntries":[{"RoutingControlState":"x","RoutingControlArn":"x"}],"SafetyRulesToOverride":1}
---- status 6
script line 1: BadId

== entries are tested in order
call 0 0 0 UpdateRoutingControlStates {"UpdateRoutingControlStateEntries":[{"RoutingControlArn":"arn:arc:control/0000000000000001","RoutingControlState":"on"},1],"SafetyRulesToOverride":1}
---- status 6
script line 1: BadState

== a control that stands twice
call 0 0 0 UpdateRoutingControlStates {"UpdateRoutingControlStateEntries":[{"RoutingControlArn":"arn:arc:control/0000000000000001","RoutingControlState":"On"},{"RoutingControlArn":"arn:arc:control/0000000000000001","RoutingControlState":"Off"}],"SafetyRulesToOverride":1}
---- status 6
script line 1: DoubledEntry

== a control that stands twice with another between
call 0 0 0 UpdateRoutingControlStates {"UpdateRoutingControlStateEntries":[{"RoutingControlArn":"arn:arc:control/0000000000000001","RoutingControlState":"On"},{"RoutingControlArn":"arn:arc:control/0000000000000002","RoutingControlState":"On"},{"RoutingControlArn":"arn:arc:control/0000000000000001","RoutingControlState":"On"}],"SafetyRulesToOverride":1}
---- status 6
script line 1: DoubledEntry

== all entries are read before doubled ones are found
call 0 0 0 UpdateRoutingControlStates {"UpdateRoutingControlStateEntries":[{"RoutingControlArn":"arn:arc:control/0000000000000001","RoutingControlState":"On"},{"RoutingControlArn":"arn:arc:control/0000000000000001","RoutingControlState":"On"},1],"SafetyRulesToOverride":1}
---- status 6
script line 1: WrongType

== a control that stands twice in two spellings
call 0 0 0 UpdateRoutingControlStates {"UpdateRoutingControlStateEntries":[{"RoutingControlArn":"arn:arc:control/00000000000000ab","RoutingControlState":"On"},{"RoutingControlArn":"arn:arc:control/00000000000000AB","RoutingControlState":"On"}],"SafetyRulesToOverride":1}
---- status 6
script line 1: DoubledEntry

== a batch with overrides that are a number
call 0 0 0 UpdateRoutingControlStates {"UpdateRoutingControlStateEntries":[{"RoutingControlArn":"arn:arc:control/0000000000000001","RoutingControlState":"On"}],"SafetyRulesToOverride":1}
---- status 6
script line 1: WrongType

== a batch of 17 overrides, whatever they are
call 0 0 0 UpdateRoutingControlStates {"UpdateRoutingControlStateEntries":[{"RoutingControlArn":"arn:arc:control/0000000000000001","RoutingControlState":"On"}],"SafetyRulesToOverride":[1,1,1,1,1,1,1,1,1,1,1,1,1,1,1,1,1]}
---- status 6
script line 1: TooManyEntries

== a batch with a control among the overrides
call 0 0 0 UpdateRoutingControlStates {"UpdateRoutingControlStateEntries":[{"RoutingControlArn":"arn:arc:control/0000000000000001","RoutingControlState":"On"}],"SafetyRulesToOverride":["arn:arc:control/0000000000000001"]}
---- status 6
script line 1: BadId

== a batch with null among the overrides
call 0 0 0 UpdateRoutingControlStates {"UpdateRoutingControlStateEntries":[{"RoutingControlArn":"arn:arc:control/0000000000000001","RoutingControlState":"On"}],"SafetyRulesToOverride":["arn:arc:rule/0000000000000001",null]}
---- status 6
script line 1: WrongType

== a batch without entries
call 0 0 0 UpdateRoutingControlStates {"SafetyRulesToOverride":1}
---- status 6
script line 1: MissingMember
