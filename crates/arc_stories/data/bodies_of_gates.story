# The bodies of gates, and of the updates of rules.

== a gate takes its gating controls, its targets, its threshold and its inversion
new 0 0 0 a
new 0 0 0 b
new 0 0 0 c
call 0 0 0 CreateSafetyRule {"GatingRule":{"Name":"a","ControlPanelArn":"arn:arc:panel/0000000000000001","GatingControls":["arn:arc:control/0000000000000002","arn:arc:control/0000000000000001"],"TargetControls":["arn:arc:control/0000000000000003"],"RuleConfig":{"Type":"ATLEAST","Threshold":2,"Inverted":true},"WaitPeriodMs":0}}
batch 0 0 0 1=On,2=On -
set 0 0 0 3 On
set 0 0 0 1 Off
set 0 0 0 3 On
----
slot 0 token 1 200 {"RoutingControl":{"ControlPanelArn":"arn:arc:panel/0000000000000001","Name":"a","RoutingControlArn":"arn:arc:control/0000000000000001"}}
slot 1 token 2 200 {"RoutingControl":{"ControlPanelArn":"arn:arc:panel/0000000000000001","Name":"b","RoutingControlArn":"arn:arc:control/0000000000000002"}}
slot 2 token 3 200 {"RoutingControl":{"ControlPanelArn":"arn:arc:panel/0000000000000001","Name":"c","RoutingControlArn":"arn:arc:control/0000000000000003"}}
slot 3 token 4 200 {"SafetyRuleArn":"arn:arc:rule/0000000000000001"}
slot 4 token 5 200 {}
slot 5 token 6 409 {"Reason":"Forbidden","Rules":[{"Cause":"GateClosed","SafetyRuleArn":"arn:arc:rule/0000000000000001"}],"__type":"ConflictException"}
slot 6 token 7 200 {}
slot 7 token 8 200 {}

== an update gives a rule another name and wait
new 0 0 0 a
new 0 0 0 b
assert 0 0 0 r AND 5 1
gate 0 0 0 g AND 6 1 2
call 0 0 0 UpdateSafetyRule {"GatingRuleUpdate":{"SafetyRuleArn":"arn:arc:rule/0000000000000002","Name":"b","WaitPeriodMs":7}}
call 0 0 0 UpdateSafetyRule {"AssertionRuleUpdate":{"SafetyRuleArn":"arn:arc:rule/0000000000000001","Name":"a","WaitPeriodMs":604800000}}
call 0 0 0 ListSafetyRules {"ControlPanelArn":"arn:arc:panel/0000000000000001"}
----
slot 0 token 1 200 {"RoutingControl":{"ControlPanelArn":"arn:arc:panel/0000000000000001","Name":"a","RoutingControlArn":"arn:arc:control/0000000000000001"}}
slot 1 token 2 200 {"RoutingControl":{"ControlPanelArn":"arn:arc:panel/0000000000000001","Name":"b","RoutingControlArn":"arn:arc:control/0000000000000002"}}
slot 2 token 3 200 {"SafetyRuleArn":"arn:arc:rule/0000000000000001"}
slot 3 token 4 200 {"SafetyRuleArn":"arn:arc:rule/0000000000000002"}
slot 4 token 5 200 {}
slot 5 token 6 200 {}
slot 6 token 7 200 {"SafetyRules":[{"Name":"a","SafetyRuleArn":"arn:arc:rule/0000000000000001","Type":"ASSERTION","WaitPeriodMs":604800000},{"Name":"b","SafetyRuleArn":"arn:arc:rule/0000000000000002","Type":"GATING","WaitPeriodMs":7}]}

== an update tells the kind of its rule
new 0 0 0 a
new 0 0 0 b
assert 0 0 0 r AND 5 1
call 0 0 0 UpdateSafetyRule {"GatingRuleUpdate":{"SafetyRuleArn":"arn:arc:rule/0000000000000001","Name":"b","WaitPeriodMs":7}}
----
slot 0 token 1 200 {"RoutingControl":{"ControlPanelArn":"arn:arc:panel/0000000000000001","Name":"a","RoutingControlArn":"arn:arc:control/0000000000000001"}}
slot 1 token 2 200 {"RoutingControl":{"ControlPanelArn":"arn:arc:panel/0000000000000001","Name":"b","RoutingControlArn":"arn:arc:control/0000000000000002"}}
slot 2 token 3 200 {"SafetyRuleArn":"arn:arc:rule/0000000000000001"}
slot 3 token 4 404 {"Reason":"NotFound","Resource":"arn:arc:rule/0000000000000001","__type":"ResourceNotFoundException"}

== the first control in the order of the lists that the panel lacks is told
new 0 0 0 a
call 0 0 0 CreateSafetyRule {"GatingRule":{"Name":"a","ControlPanelArn":"arn:arc:panel/0000000000000001","GatingControls":["arn:arc:control/0000000000000001","arn:arc:control/0000000000000009"],"TargetControls":["arn:arc:control/0000000000000008"],"RuleConfig":{"Type":"AND"},"WaitPeriodMs":0}}
call 0 0 0 CreateSafetyRule {"GatingRule":{"Name":"a","ControlPanelArn":"arn:arc:panel/0000000000000001","GatingControls":["arn:arc:control/0000000000000001"],"TargetControls":["arn:arc:control/0000000000000008","arn:arc:control/0000000000000007"],"RuleConfig":{"Type":"AND"},"WaitPeriodMs":0}}
----
slot 0 token 1 200 {"RoutingControl":{"ControlPanelArn":"arn:arc:panel/0000000000000001","Name":"a","RoutingControlArn":"arn:arc:control/0000000000000001"}}
slot 1 token 2 404 {"Reason":"NotFound","Resource":"arn:arc:control/0000000000000009","__type":"ResourceNotFoundException"}
slot 2 token 3 404 {"Reason":"NotFound","Resource":"arn:arc:control/0000000000000008","__type":"ResourceNotFoundException"}

== a gate that is a list
call 0 0 0 CreateSafetyRule {"GatingRule":[]}
---- status 6
script line 1: WrongType

== an update without a kind
call 0 0 0 UpdateSafetyRule {}
---- status 6
script line 1: BadRule

== an update of both kinds
call 0 0 0 UpdateSafetyRule {"AssertionRuleUpdate":{},"GatingRuleUpdate":{}}
---- status 6
script line 1: BadRule

== an update whose kinds are null
call 0 0 0 UpdateSafetyRule {"AssertionRuleUpdate":null,"GatingRuleUpdate":null}
---- status 6
script line 1: BadRule

== an update that is a text
call 0 0 0 UpdateSafetyRule {"GatingRuleUpdate":"a"}
---- status 6
script line 1: WrongType

== an update that is a new rule
call 0 0 0 UpdateSafetyRule {"AssertionRule":{}}
---- status 6
script line 1: BadRule

== a gate without Name
call 0 0 0 CreateSafetyRule {"GatingRule":{"ControlPanelArn":1,"GatingControls":1,"TargetControls":1,"RuleConfig":1,"WaitPeriodMs":"x"}}
---- status 6
script line 1: MissingMember

== a gate with Name that is a number
call 0 0 0 CreateSafetyRule {"GatingRule":{"Name":1,"ControlPanelArn":1,"GatingControls":1,"TargetControls":1,"RuleConfig":1,"WaitPeriodMs":"x"}}
---- status 6
script line 1: WrongType

== a gate with Name that is empty
call 0 0 0 CreateSafetyRule {"GatingRule":{"Name":"","ControlPanelArn":1,"GatingControls":1,"TargetControls":1,"RuleConfig":1,"WaitPeriodMs":"x"}}
---- status 6
script line 1: BadName

== a gate with Name of 65 bytes
call 0 0 0 CreateSafetyRule {"GatingRule":{"Name":"xxxxxxxxxxxxxxxxxxxxxxxxxxxxxxxxxxxxxxxxxxxxxxxxxxxxxxxxxxxxxxxxx","ControlPanelArn":1,"GatingControls":1,"TargetControls":1,"RuleConfig":1,"WaitPeriodMs":"x"}}
---- status 6
script line 1: BadName

== a gate without ControlPanelArn
call 0 0 0 CreateSafetyRule {"GatingRule":{"Name":"a","GatingControls":1,"TargetControls":1,"RuleConfig":1,"WaitPeriodMs":"x"}}
---- status 6
script line 1: MissingMember

== a gate with ControlPanelArn that is a number
call 0 0 0 CreateSafetyRule {"GatingRule":{"Name":"a","ControlPanelArn":1,"GatingControls":1,"TargetControls":1,"RuleConfig":1,"WaitPeriodMs":"x"}}
---- status 6
script line 1: WrongType

== a gate with ControlPanelArn of another kind
call 0 0 0 CreateSafetyRule {"GatingRule":{"Name":"a","ControlPanelArn":"arn:arc:control/0000000000000001","GatingControls":1,"TargetControls":1,"RuleConfig":1,"WaitPeriodMs":"x"}}
---- status 6
script line 1: BadId

== a gate without GatingControls
call 0 0 0 CreateSafetyRule {"GatingRule":{"Name":"a","ControlPanelArn":"arn:arc:panel/0000000000000001","TargetControls":1,"RuleConfig":1,"WaitPeriodMs":"x"}}
---- status 6
script line 1: MissingMember

== a gate with GatingControls that are a number
call 0 0 0 CreateSafetyRule {"GatingRule":{"Name":"a","ControlPanelArn":"arn:arc:panel/0000000000000001","GatingControls":1,"TargetControls":1,"RuleConfig":1,"WaitPeriodMs":"x"}}
---- status 6
script line 1: WrongType

== a gate with GatingControls that are empty
call 0 0 0 CreateSafetyRule {"GatingRule":{"Name":"a","ControlPanelArn":"arn:arc:panel/0000000000000001","GatingControls":[],"TargetControls":1,"RuleConfig":1,"WaitPeriodMs":"x"}}
---- status 6
script line 1: EmptyEntries

== a gate with GatingControls of 33 items, whatever they are
call 0 0 0 CreateSafetyRule {"GatingRule":{"Name":"a","ControlPanelArn":"arn:arc:panel/0000000000000001","GatingControls":[1,1,1,1,1,1,1,1,1,1,1,1,1,1,1,1,1,1,1,1,1,1,1,1,1,1,1,1,1,1,1,1,1],"TargetControls":1,"RuleConfig":1,"WaitPeriodMs":"x"}}
---- status 6
script line 1: TooManyEntries

== a gate with GatingControls that hold null
call 0 0 0 CreateSafetyRule {"GatingRule":{"Name":"a","ControlPanelArn":"arn:arc:panel/0000000000000001","GatingControls":[null],"TargetControls":1,"RuleConfig":1,"WaitPeriodMs":"x"}}
---- status 6
script line 1: WrongType

== a gate with GatingControls that hold a panel
call 0 0 0 CreateSafetyRule {"GatingRule":{"Name":"a","ControlPanelArn":"arn:arc:panel/0000000000000001","GatingControls":["arn:arc:control/0000000000000001","arn:arc:panel/0000000000000001",1],"TargetControls":1,"RuleConfig":1,"WaitPeriodMs":"x"}}
---- status 6
script line 1: BadId

== a gate with GatingControls that hold one control twice
call 0 0 0 CreateSafetyRule {"GatingRule":{"Name":"a","ControlPanelArn":"arn:arc:panel/0000000000000001","GatingControls":["arn:arc:control/0000000000000001","arn:arc:control/0000000000000002","arn:arc:control/0000000000000001"],"TargetControls":1,"RuleConfig":1,"WaitPeriodMs":"x"}}
---- status 6
script line 1: DoubledEntry

== a gate with GatingControls of which all are read before doubles are found
call 0 0 0 CreateSafetyRule {"GatingRule":{"Name":"a","ControlPanelArn":"arn:arc:panel/0000000000000001","GatingControls":["arn:arc:control/0000000000000001","arn:arc:control/0000000000000001",1],"TargetControls":1,"RuleConfig":1,"WaitPeriodMs":"x"}}
---- status 6
script line 1: WrongType

== a gate without TargetControls
call 0 0 0 CreateSafetyRule {"GatingRule":{"Name":"a","ControlPanelArn":"arn:arc:panel/0000000000000001","GatingControls":["arn:arc:control/0000000000000001","arn:arc:control/0000000000000002"],"RuleConfig":1,"WaitPeriodMs":"x"}}
---- status 6
script line 1: MissingMember

== a gate with TargetControls that are a number
call 0 0 0 CreateSafetyRule {"GatingRule":{"Name":"a","ControlPanelArn":"arn:arc:panel/0000000000000001","GatingControls":["arn:arc:control/0000000000000001","arn:arc:control/0000000000000002"],"TargetControls":1,"RuleConfig":1,"WaitPeriodMs":"x"}}
---- status 6
script line 1: WrongType

== a gate with TargetControls that are empty
call 0 0 0 CreateSafetyRule {"GatingRule":{"Name":"a","ControlPanelArn":"arn:arc:panel/0000000000000001","GatingControls":["arn:arc:control/0000000000000001","arn:arc:control/0000000000000002"],"TargetControls":[],"RuleConfig":1,"WaitPeriodMs":"x"}}
---- status 6
script line 1: EmptyEntries

== a gate with TargetControls of 33 items, whatever they are
call 0 0 0 CreateSafetyRule {"GatingRule":{"Name":"a","ControlPanelArn":"arn:arc:panel/0000000000000001","GatingControls":["arn:arc:control/0000000000000001","arn:arc:control/0000000000000002"],"TargetControls":[1,1,1,1,1,1,1,1,1,1,1,1,1,1,1,1,1,1,1,1,1,1,1,1,1,1,1,1,1,1,1,1,1],"RuleConfig":1,"WaitPeriodMs":"x"}}
---- status 6
script line 1: TooManyEntries

== a gate with TargetControls that hold null
call 0 0 0 CreateSafetyRule {"GatingRule":{"Name":"a","ControlPanelArn":"arn:arc:panel/0000000000000001","GatingControls":["arn:arc:control/0000000000000001","arn:arc:control/0000000000000002"],"TargetControls":[null],"RuleConfig":1,"WaitPeriodMs":"x"}}
---- status 6
script line 1: WrongType

== a gate with TargetControls that hold a panel
call 0 0 0 CreateSafetyRule {"GatingRule":{"Name":"a","ControlPanelArn":"arn:arc:panel/0000000000000001","GatingControls":["arn:arc:control/0000000000000001","arn:arc:control/0000000000000002"],"TargetControls":["arn:arc:control/0000000000000001","arn:arc:panel/0000000000000001",1],"RuleConfig":1,"WaitPeriodMs":"x"}}
---- status 6
script line 1: BadId

== a gate with TargetControls that hold one control twice
call 0 0 0 CreateSafetyRule {"GatingRule":{"Name":"a","ControlPanelArn":"arn:arc:panel/0000000000000001","GatingControls":["arn:arc:control/0000000000000001","arn:arc:control/0000000000000002"],"TargetControls":["arn:arc:control/0000000000000001","arn:arc:control/0000000000000002","arn:arc:control/0000000000000001"],"RuleConfig":1,"WaitPeriodMs":"x"}}
---- status 6
script line 1: DoubledEntry

== a gate with TargetControls of which all are read before doubles are found
call 0 0 0 CreateSafetyRule {"GatingRule":{"Name":"a","ControlPanelArn":"arn:arc:panel/0000000000000001","GatingControls":["arn:arc:control/0000000000000001","arn:arc:control/0000000000000002"],"TargetControls":["arn:arc:control/0000000000000001","arn:arc:control/0000000000000001",1],"RuleConfig":1,"WaitPeriodMs":"x"}}
---- status 6
script line 1: WrongType

== a gate without RuleConfig
call 0 0 0 CreateSafetyRule {"GatingRule":{"Name":"a","ControlPanelArn":"arn:arc:panel/0000000000000001","GatingControls":["arn:arc:control/0000000000000001","arn:arc:control/0000000000000002"],"TargetControls":["arn:arc:control/0000000000000001","arn:arc:control/0000000000000002"],"WaitPeriodMs":"x"}}
---- status 6
script line 1: MissingMember

== a gate with RuleConfig that is a number
call 0 0 0 CreateSafetyRule {"GatingRule":{"Name":"a","ControlPanelArn":"arn:arc:panel/0000000000000001","GatingControls":["arn:arc:control/0000000000000001","arn:arc:control/0000000000000002"],"TargetControls":["arn:arc:control/0000000000000001","arn:arc:control/0000000000000002"],"RuleConfig":1,"WaitPeriodMs":"x"}}
---- status 6
script line 1: WrongType

== a gate with RuleConfig that is a list
call 0 0 0 CreateSafetyRule {"GatingRule":{"Name":"a","ControlPanelArn":"arn:arc:panel/0000000000000001","GatingControls":["arn:arc:control/0000000000000001","arn:arc:control/0000000000000002"],"TargetControls":["arn:arc:control/0000000000000001","arn:arc:control/0000000000000002"],"RuleConfig":[],"WaitPeriodMs":"x"}}
---- status 6
script line 1: WrongType

== a gate without WaitPeriodMs
call 0 0 0 CreateSafetyRule {"GatingRule":{"Name":"a","ControlPanelArn":"arn:arc:panel/0000000000000001","GatingControls":["arn:arc:control/0000000000000001","arn:arc:control/0000000000000002"],"TargetControls":["arn:arc:control/0000000000000001","arn:arc:control/0000000000000002"],"RuleConfig":{"Type":"AND"}}}
---- status 6
script line 1: MissingMember

== a gate with WaitPeriodMs that are a text
call 0 0 0 CreateSafetyRule {"GatingRule":{"Name":"a","ControlPanelArn":"arn:arc:panel/0000000000000001","GatingControls":["arn:arc:control/0000000000000001","arn:arc:control/0000000000000002"],"TargetControls":["arn:arc:control/0000000000000001","arn:arc:control/0000000000000002"],"RuleConfig":{"Type":"AND"},"WaitPeriodMs":"0"}}
---- status 6
script line 1: WrongType

== a gate with WaitPeriodMs below 0
call 0 0 0 CreateSafetyRule {"GatingRule":{"Name":"a","ControlPanelArn":"arn:arc:panel/0000000000000001","GatingControls":["arn:arc:control/0000000000000001","arn:arc:control/0000000000000002"],"TargetControls":["arn:arc:control/0000000000000001","arn:arc:control/0000000000000002"],"RuleConfig":{"Type":"AND"},"WaitPeriodMs":-1}}
---- status 6
script line 1: WrongType

== a gate with WaitPeriodMs of more than seven days
call 0 0 0 CreateSafetyRule {"GatingRule":{"Name":"a","ControlPanelArn":"arn:arc:panel/0000000000000001","GatingControls":["arn:arc:control/0000000000000001","arn:arc:control/0000000000000002"],"TargetControls":["arn:arc:control/0000000000000001","arn:arc:control/0000000000000002"],"RuleConfig":{"Type":"AND"},"WaitPeriodMs":604800001}}
---- status 6
script line 1: BadWait

== a gate with WaitPeriodMs of 2 to the power of 32
call 0 0 0 CreateSafetyRule {"GatingRule":{"Name":"a","ControlPanelArn":"arn:arc:panel/0000000000000001","GatingControls":["arn:arc:control/0000000000000001","arn:arc:control/0000000000000002"],"TargetControls":["arn:arc:control/0000000000000001","arn:arc:control/0000000000000002"],"RuleConfig":{"Type":"AND"},"WaitPeriodMs":4294967296}}
---- status 6
script line 1: BadWait

== an update of an assertion without SafetyRuleArn
call 0 0 0 UpdateSafetyRule {"AssertionRuleUpdate":{"Name":1,"WaitPeriodMs":"x"}}
---- status 6
script line 1: MissingMember

== an update of an assertion with SafetyRuleArn that is a number
call 0 0 0 UpdateSafetyRule {"AssertionRuleUpdate":{"SafetyRuleArn":1,"Name":1,"WaitPeriodMs":"x"}}
---- status 6
script line 1: WrongType

== an update of an assertion with SafetyRuleArn of another kind
call 0 0 0 UpdateSafetyRule {"AssertionRuleUpdate":{"SafetyRuleArn":"arn:arc:control/0000000000000001","Name":1,"WaitPeriodMs":"x"}}
---- status 6
script line 1: BadId

== an update of an assertion without Name
call 0 0 0 UpdateSafetyRule {"AssertionRuleUpdate":{"SafetyRuleArn":"arn:arc:rule/0000000000000001","WaitPeriodMs":"x"}}
---- status 6
script line 1: MissingMember

== an update of an assertion with Name that is a number
call 0 0 0 UpdateSafetyRule {"AssertionRuleUpdate":{"SafetyRuleArn":"arn:arc:rule/0000000000000001","Name":1,"WaitPeriodMs":"x"}}
---- status 6
script line 1: WrongType

== an update of an assertion with Name that is empty
call 0 0 0 UpdateSafetyRule {"AssertionRuleUpdate":{"SafetyRuleArn":"arn:arc:rule/0000000000000001","Name":"","WaitPeriodMs":"x"}}
---- status 6
script line 1: BadName

== an update of an assertion with Name of 65 bytes
call 0 0 0 UpdateSafetyRule {"AssertionRuleUpdate":{"SafetyRuleArn":"arn:arc:rule/0000000000000001","Name":"xxxxxxxxxxxxxxxxxxxxxxxxxxxxxxxxxxxxxxxxxxxxxxxxxxxxxxxxxxxxxxxxx","WaitPeriodMs":"x"}}
---- status 6
script line 1: BadName

== an update of an assertion without WaitPeriodMs
call 0 0 0 UpdateSafetyRule {"AssertionRuleUpdate":{"SafetyRuleArn":"arn:arc:rule/0000000000000001","Name":"a"}}
---- status 6
script line 1: MissingMember

== an update of an assertion with WaitPeriodMs that are a text
call 0 0 0 UpdateSafetyRule {"AssertionRuleUpdate":{"SafetyRuleArn":"arn:arc:rule/0000000000000001","Name":"a","WaitPeriodMs":"0"}}
---- status 6
script line 1: WrongType

== an update of an assertion with WaitPeriodMs below 0
call 0 0 0 UpdateSafetyRule {"AssertionRuleUpdate":{"SafetyRuleArn":"arn:arc:rule/0000000000000001","Name":"a","WaitPeriodMs":-1}}
---- status 6
script line 1: WrongType

== an update of an assertion with WaitPeriodMs of more than seven days
call 0 0 0 UpdateSafetyRule {"AssertionRuleUpdate":{"SafetyRuleArn":"arn:arc:rule/0000000000000001","Name":"a","WaitPeriodMs":604800001}}
---- status 6
script line 1: BadWait

== an update of an assertion with WaitPeriodMs of 2 to the power of 32
call 0 0 0 UpdateSafetyRule {"AssertionRuleUpdate":{"SafetyRuleArn":"arn:arc:rule/0000000000000001","Name":"a","WaitPeriodMs":4294967296}}
---- status 6
script line 1: BadWait

== an update of a gate without SafetyRuleArn
call 0 0 0 UpdateSafetyRule {"GatingRuleUpdate":{"Name":1,"WaitPeriodMs":"x"}}
---- status 6
script line 1: MissingMember

== an update of a gate with SafetyRuleArn that is a number
call 0 0 0 UpdateSafetyRule {"GatingRuleUpdate":{"SafetyRuleArn":1,"Name":1,"WaitPeriodMs":"x"}}
---- status 6
script line 1: WrongType

== an update of a gate with SafetyRuleArn of another kind
call 0 0 0 UpdateSafetyRule {"GatingRuleUpdate":{"SafetyRuleArn":"arn:arc:control/0000000000000001","Name":1,"WaitPeriodMs":"x"}}
---- status 6
script line 1: BadId

== an update of a gate without Name
call 0 0 0 UpdateSafetyRule {"GatingRuleUpdate":{"SafetyRuleArn":"arn:arc:rule/0000000000000001","WaitPeriodMs":"x"}}
---- status 6
script line 1: MissingMember

== an update of a gate with Name that is a number
call 0 0 0 UpdateSafetyRule {"GatingRuleUpdate":{"SafetyRuleArn":"arn:arc:rule/0000000000000001","Name":1,"WaitPeriodMs":"x"}}
---- status 6
script line 1: WrongType

== an update of a gate with Name that is empty
call 0 0 0 UpdateSafetyRule {"GatingRuleUpdate":{"SafetyRuleArn":"arn:arc:rule/0000000000000001","Name":"","WaitPeriodMs":"x"}}
---- status 6
script line 1: BadName

== an update of a gate with Name of 65 bytes
call 0 0 0 UpdateSafetyRule {"GatingRuleUpdate":{"SafetyRuleArn":"arn:arc:rule/0000000000000001","Name":"xxxxxxxxxxxxxxxxxxxxxxxxxxxxxxxxxxxxxxxxxxxxxxxxxxxxxxxxxxxxxxxxx","WaitPeriodMs":"x"}}
---- status 6
script line 1: BadName

== an update of a gate without WaitPeriodMs
call 0 0 0 UpdateSafetyRule {"GatingRuleUpdate":{"SafetyRuleArn":"arn:arc:rule/0000000000000001","Name":"a"}}
---- status 6
script line 1: MissingMember

== an update of a gate with WaitPeriodMs that are a text
call 0 0 0 UpdateSafetyRule {"GatingRuleUpdate":{"SafetyRuleArn":"arn:arc:rule/0000000000000001","Name":"a","WaitPeriodMs":"0"}}
---- status 6
script line 1: WrongType

== an update of a gate with WaitPeriodMs below 0
call 0 0 0 UpdateSafetyRule {"GatingRuleUpdate":{"SafetyRuleArn":"arn:arc:rule/0000000000000001","Name":"a","WaitPeriodMs":-1}}
---- status 6
script line 1: WrongType

== an update of a gate with WaitPeriodMs of more than seven days
call 0 0 0 UpdateSafetyRule {"GatingRuleUpdate":{"SafetyRuleArn":"arn:arc:rule/0000000000000001","Name":"a","WaitPeriodMs":604800001}}
---- status 6
script line 1: BadWait

== an update of a gate with WaitPeriodMs of 2 to the power of 32
call 0 0 0 UpdateSafetyRule {"GatingRuleUpdate":{"SafetyRuleArn":"arn:arc:rule/0000000000000001","Name":"a","WaitPeriodMs":4294967296}}
---- status 6
script line 1: BadWait

== the threshold of a gate is measured by its gating controls
call 0 0 0 CreateSafetyRule {"GatingRule":{"Name":"a","ControlPanelArn":"arn:arc:panel/0000000000000001","GatingControls":["arn:arc:control/0000000000000001"],"TargetControls":["arn:arc:control/0000000000000001","arn:arc:control/0000000000000002"],"RuleConfig":{"Type":"ATLEAST","Threshold":2},"WaitPeriodMs":"x"}}
---- status 6
script line 1: BadThreshold

== a gate with asserted controls lacks its gating ones
call 0 0 0 CreateSafetyRule {"GatingRule":{"Name":"a","ControlPanelArn":"arn:arc:panel/0000000000000001","AssertedControls":["arn:arc:control/0000000000000001"],"TargetControls":["arn:arc:control/0000000000000001"],"RuleConfig":1,"WaitPeriodMs":"x"}}
---- status 6
script line 1: MissingMember
