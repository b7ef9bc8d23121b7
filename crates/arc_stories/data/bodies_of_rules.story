# The bodies of safety rules.

== AND ignores a threshold, however great it is
new 0 0 0 a
new 0 0 0 b
batch 0 0 0 1=On,2=On -
call 0 0 0 CreateSafetyRule {"AssertionRule":{"Name":"a","ControlPanelArn":"arn:arc:panel/0000000000000001","AssertedControls":["arn:arc:control/0000000000000001","arn:arc:control/0000000000000002"],"RuleConfig":{"Type":"AND","Threshold":18446744073709551615},"WaitPeriodMs":0}}
set 0 0 0 1 Off
----
slot 0 token 1 200 {"RoutingControl":{"ControlPanelArn":"arn:arc:panel/0000000000000001","Name":"a","RoutingControlArn":"arn:arc:control/0000000000000001"}}
slot 1 token 2 200 {"RoutingControl":{"ControlPanelArn":"arn:arc:panel/0000000000000001","Name":"b","RoutingControlArn":"arn:arc:control/0000000000000002"}}
slot 2 token 3 200 {}
slot 3 token 4 200 {"SafetyRuleArn":"arn:arc:rule/0000000000000001"}
slot 4 token 5 409 {"Reason":"Forbidden","Rules":[{"Cause":"AssertFalse","SafetyRuleArn":"arn:arc:rule/0000000000000001"}],"__type":"ConflictException"}

== OR ignores a threshold, so that one control is enough
new 0 0 0 a
new 0 0 0 b
batch 0 0 0 1=On,2=On -
call 0 0 0 CreateSafetyRule {"AssertionRule":{"Name":"a","ControlPanelArn":"arn:arc:panel/0000000000000001","AssertedControls":["arn:arc:control/0000000000000001","arn:arc:control/0000000000000002"],"RuleConfig":{"Type":"OR","Threshold":2},"WaitPeriodMs":0}}
set 0 0 0 1 Off
set 0 0 0 2 Off
----
slot 0 token 1 200 {"RoutingControl":{"ControlPanelArn":"arn:arc:panel/0000000000000001","Name":"a","RoutingControlArn":"arn:arc:control/0000000000000001"}}
slot 1 token 2 200 {"RoutingControl":{"ControlPanelArn":"arn:arc:panel/0000000000000001","Name":"b","RoutingControlArn":"arn:arc:control/0000000000000002"}}
slot 2 token 3 200 {}
slot 3 token 4 200 {"SafetyRuleArn":"arn:arc:rule/0000000000000001"}
slot 4 token 5 200 {}
slot 5 token 6 409 {"Reason":"Forbidden","Rules":[{"Cause":"AssertFalse","SafetyRuleArn":"arn:arc:rule/0000000000000001"}],"__type":"ConflictException"}

== ATLEAST takes its threshold
new 0 0 0 a
new 0 0 0 b
batch 0 0 0 1=On,2=On -
call 0 0 0 CreateSafetyRule {"AssertionRule":{"Name":"a","ControlPanelArn":"arn:arc:panel/0000000000000001","AssertedControls":["arn:arc:control/0000000000000001","arn:arc:control/0000000000000002"],"RuleConfig":{"Type":"ATLEAST","Threshold":2},"WaitPeriodMs":0}}
set 0 0 0 1 Off
----
slot 0 token 1 200 {"RoutingControl":{"ControlPanelArn":"arn:arc:panel/0000000000000001","Name":"a","RoutingControlArn":"arn:arc:control/0000000000000001"}}
slot 1 token 2 200 {"RoutingControl":{"ControlPanelArn":"arn:arc:panel/0000000000000001","Name":"b","RoutingControlArn":"arn:arc:control/0000000000000002"}}
slot 2 token 3 200 {}
slot 3 token 4 200 {"SafetyRuleArn":"arn:arc:rule/0000000000000001"}
slot 4 token 5 409 {"Reason":"Forbidden","Rules":[{"Cause":"AssertFalse","SafetyRuleArn":"arn:arc:rule/0000000000000001"}],"__type":"ConflictException"}

== a rule isn't inverted where nothing is given
new 0 0 0 a
new 0 0 0 b
call 0 0 0 CreateSafetyRule {"AssertionRule":{"Name":"a","ControlPanelArn":"arn:arc:panel/0000000000000001","AssertedControls":["arn:arc:control/0000000000000001","arn:arc:control/0000000000000002"],"RuleConfig":{"Type":"OR"},"WaitPeriodMs":0}}
set 0 0 0 1 On
----
slot 0 token 1 200 {"RoutingControl":{"ControlPanelArn":"arn:arc:panel/0000000000000001","Name":"a","RoutingControlArn":"arn:arc:control/0000000000000001"}}
slot 1 token 2 200 {"RoutingControl":{"ControlPanelArn":"arn:arc:panel/0000000000000001","Name":"b","RoutingControlArn":"arn:arc:control/0000000000000002"}}
slot 2 token 3 200 {"SafetyRuleArn":"arn:arc:rule/0000000000000001"}
slot 3 token 4 200 {}

== a rule isn't inverted where null is given
new 0 0 0 a
new 0 0 0 b
call 0 0 0 CreateSafetyRule {"AssertionRule":{"Name":"a","ControlPanelArn":"arn:arc:panel/0000000000000001","AssertedControls":["arn:arc:control/0000000000000001","arn:arc:control/0000000000000002"],"RuleConfig":{"Type":"OR","Inverted":null},"WaitPeriodMs":0}}
set 0 0 0 1 On
----
slot 0 token 1 200 {"RoutingControl":{"ControlPanelArn":"arn:arc:panel/0000000000000001","Name":"a","RoutingControlArn":"arn:arc:control/0000000000000001"}}
slot 1 token 2 200 {"RoutingControl":{"ControlPanelArn":"arn:arc:panel/0000000000000001","Name":"b","RoutingControlArn":"arn:arc:control/0000000000000002"}}
slot 2 token 3 200 {"SafetyRuleArn":"arn:arc:rule/0000000000000001"}
slot 3 token 4 200 {}

== a rule isn't inverted where false is given
new 0 0 0 a
new 0 0 0 b
call 0 0 0 CreateSafetyRule {"AssertionRule":{"Name":"a","ControlPanelArn":"arn:arc:panel/0000000000000001","AssertedControls":["arn:arc:control/0000000000000001","arn:arc:control/0000000000000002"],"RuleConfig":{"Type":"OR","Inverted":false},"WaitPeriodMs":0}}
set 0 0 0 1 On
----
slot 0 token 1 200 {"RoutingControl":{"ControlPanelArn":"arn:arc:panel/0000000000000001","Name":"a","RoutingControlArn":"arn:arc:control/0000000000000001"}}
slot 1 token 2 200 {"RoutingControl":{"ControlPanelArn":"arn:arc:panel/0000000000000001","Name":"b","RoutingControlArn":"arn:arc:control/0000000000000002"}}
slot 2 token 3 200 {"SafetyRuleArn":"arn:arc:rule/0000000000000001"}
slot 3 token 4 200 {}

== a rule is inverted where true is given
new 0 0 0 a
new 0 0 0 b
call 0 0 0 CreateSafetyRule {"AssertionRule":{"Name":"a","ControlPanelArn":"arn:arc:panel/0000000000000001","AssertedControls":["arn:arc:control/0000000000000001","arn:arc:control/0000000000000002"],"RuleConfig":{"Type":"OR","Inverted":true},"WaitPeriodMs":0}}
set 0 0 0 1 On
----
slot 0 token 1 200 {"RoutingControl":{"ControlPanelArn":"arn:arc:panel/0000000000000001","Name":"a","RoutingControlArn":"arn:arc:control/0000000000000001"}}
slot 1 token 2 200 {"RoutingControl":{"ControlPanelArn":"arn:arc:panel/0000000000000001","Name":"b","RoutingControlArn":"arn:arc:control/0000000000000002"}}
slot 2 token 3 200 {"SafetyRuleArn":"arn:arc:rule/0000000000000001"}
slot 3 token 4 409 {"Reason":"Forbidden","Rules":[{"Cause":"AssertFalse","SafetyRuleArn":"arn:arc:rule/0000000000000001"}],"__type":"ConflictException"}

== rules take their names, kinds and waits
new 0 0 0 a
new 0 0 0 b
call 0 0 0 CreateSafetyRule {"AssertionRule":{"Name":"xxxxxxxxxxxxxxxxxxxxxxxxxxxxxxxxxxxxxxxxxxxxxxxxxxxxxxxxxxxxxxxx","ControlPanelArn":"arn:arc:panel/0000000000000001","AssertedControls":["arn:arc:control/0000000000000001","arn:arc:control/0000000000000002"],"RuleConfig":{"Type":"AND"},"WaitPeriodMs":604800000}}
call 0 0 0 CreateSafetyRule {"GatingRule":{"Name":"g","ControlPanelArn":"arn:arc:panel/0000000000000001","GatingControls":["arn:arc:control/0000000000000001"],"TargetControls":["arn:arc:control/0000000000000002"],"RuleConfig":{"Type":"AND"},"WaitPeriodMs":0}}
call 0 0 0 ListSafetyRules {"ControlPanelArn":"arn:arc:panel/0000000000000001"}
----
slot 0 token 1 200 {"RoutingControl":{"ControlPanelArn":"arn:arc:panel/0000000000000001","Name":"a","RoutingControlArn":"arn:arc:control/0000000000000001"}}
slot 1 token 2 200 {"RoutingControl":{"ControlPanelArn":"arn:arc:panel/0000000000000001","Name":"b","RoutingControlArn":"arn:arc:control/0000000000000002"}}
slot 2 token 3 200 {"SafetyRuleArn":"arn:arc:rule/0000000000000001"}
slot 3 token 4 200 {"SafetyRuleArn":"arn:arc:rule/0000000000000002"}
slot 4 token 5 200 {"SafetyRules":[{"Name":"xxxxxxxxxxxxxxxxxxxxxxxxxxxxxxxxxxxxxxxxxxxxxxxxxxxxxxxxxxxxxxxx","SafetyRuleArn":"arn:arc:rule/0000000000000001","Type":"ASSERTION","WaitPeriodMs":604800000},{"Name":"g","SafetyRuleArn":"arn:arc:rule/0000000000000002","Type":"GATING","WaitPeriodMs":0}]}

== a rule is deleted
new 0 0 0 a
assert 0 0 0 r AND 0 1
call 0 0 0 DeleteSafetyRule {"SafetyRuleArn":"arn:arc:rule/0000000000000001"}
call 0 0 0 ListSafetyRules {"ControlPanelArn":"arn:arc:panel/0000000000000001"}
----
slot 0 token 1 200 {"RoutingControl":{"ControlPanelArn":"arn:arc:panel/0000000000000001","Name":"a","RoutingControlArn":"arn:arc:control/0000000000000001"}}
slot 1 token 2 200 {"SafetyRuleArn":"arn:arc:rule/0000000000000001"}
slot 2 token 3 200 {}
slot 3 token 4 200 {"SafetyRules":[]}

== a rule is made in the panel that is given
call 0 0 0 CreateSafetyRule {"AssertionRule":{"Name":"a","ControlPanelArn":"arn:arc:panel/0000000000000002","AssertedControls":["arn:arc:control/0000000000000001"],"RuleConfig":{"Type":"AND"},"WaitPeriodMs":0}}
----
slot 0 token 1 404 {"Reason":"NotFound","Resource":"arn:arc:panel/0000000000000002","__type":"ResourceNotFoundException"}

== the largest rule
call 0 0 0 CreateSafetyRule {"GatingRule":{"Name":"xxxxxxxxxxxxxxxxxxxxxxxxxxxxxxxxxxxxxxxxxxxxxxxxxxxxxxxxxxxxxxxx","ControlPanelArn":"arn:arc:panel/0000000000000001","GatingControls":["arn:arc:control/0000000000000001","arn:arc:control/0000000000000002","arn:arc:control/0000000000000003","arn:arc:control/0000000000000004","arn:arc:control/0000000000000005","arn:arc:control/0000000000000006","arn:arc:control/0000000000000007","arn:arc:control/0000000000000008","arn:arc:control/0000000000000009","arn:arc:control/000000000000000a","arn:arc:control/000000000000000b","arn:arc:control/000000000000000c","arn:arc:control/000000000000000d","arn:arc:control/000000000000000e","arn:arc:control/000000000000000f","arn:arc:control/0000000000000010","arn:arc:control/0000000000000011","arn:arc:control/0000000000000012","arn:arc:control/0000000000000013","arn:arc:control/0000000000000014","arn:arc:control/0000000000000015","arn:arc:control/0000000000000016","arn:arc:control/0000000000000017","arn:arc:control/0000000000000018","arn:arc:control/0000000000000019","arn:arc:control/000000000000001a","arn:arc:control/000000000000001b","arn:arc:control/000000000000001c","arn:arc:control/000000000000001d","arn:arc:control/000000000000001e","arn:arc:control/000000000000001f","arn:arc:control/0000000000000020"],"TargetControls":["arn:arc:control/0000000000000001","arn:arc:control/0000000000000002","arn:arc:control/0000000000000003","arn:arc:control/0000000000000004","arn:arc:control/0000000000000005","arn:arc:control/0000000000000006","arn:arc:control/0000000000000007","arn:arc:control/0000000000000008","arn:arc:control/0000000000000009","arn:arc:control/000000000000000a","arn:arc:control/000000000000000b","arn:arc:control/000000000000000c","arn:arc:control/000000000000000d","arn:arc:control/000000000000000e","arn:arc:control/000000000000000f","arn:arc:control/0000000000000010","arn:arc:control/0000000000000011","arn:arc:control/0000000000000012","arn:arc:control/0000000000000013","arn:arc:control/0000000000000014","arn:arc:control/0000000000000015","arn:arc:control/0000000000000016","arn:arc:control/0000000000000017","arn:arc:control/0000000000000018","arn:arc:control/0000000000000019","arn:arc:control/000000000000001a","arn:arc:control/000000000000001b","arn:arc:control/000000000000001c","arn:arc:control/000000000000001d","arn:arc:control/000000000000001e","arn:arc:control/000000000000001f","arn:arc:control/0000000000000020"],"RuleConfig":{"Type":"ATLEAST","Threshold":32},"WaitPeriodMs":604800000}}
----
slot 0 token 1 404 {"Reason":"NotFound","Resource":"arn:arc:control/0000000000000001","__type":"ResourceNotFoundException"}

== a new rule without a kind
call 0 0 0 CreateSafetyRule
---- status 6
script line 1: BadRule

== a new rule whose kind is null
call 0 0 0 CreateSafetyRule {"AssertionRule":null}
---- status 6
script line 1: BadRule

== a new rule of both kinds, whatever they are
call 0 0 0 CreateSafetyRule {"AssertionRule":1,"GatingRule":1}
---- status 6
script line 1: BadRule

== a kind that is null isn't there
call 0 0 0 CreateSafetyRule {"AssertionRule":1,"GatingRule":null}
---- status 6
script line 1: WrongType

== a kind that is null the last time isn't there
call 0 0 0 CreateSafetyRule {"AssertionRule":{},"AssertionRule":null}
---- status 6
script line 1: BadRule

== an assertion that is a text
call 0 0 0 CreateSafetyRule {"AssertionRule":"a"}
---- status 6
script line 1: WrongType

== a new rule that is an update
call 0 0 0 CreateSafetyRule {"AssertionRuleUpdate":{}}
---- status 6
script line 1: BadRule

== an assertion without Name
call 0 0 0 CreateSafetyRule {"AssertionRule":{"ControlPanelArn":1,"AssertedControls":1,"RuleConfig":1,"WaitPeriodMs":"x"}}
---- status 6
script line 1: MissingMember

== an assertion with Name that is a number
call 0 0 0 CreateSafetyRule {"AssertionRule":{"Name":1,"ControlPanelArn":1,"AssertedControls":1,"RuleConfig":1,"WaitPeriodMs":"x"}}
---- status 6
script line 1: WrongType

== an assertion with Name that is empty
call 0 0 0 CreateSafetyRule {"AssertionRule":{"Name":"","ControlPanelArn":1,"AssertedControls":1,"RuleConfig":1,"WaitPeriodMs":"x"}}
---- status 6
script line 1: BadName

== an assertion with Name of 65 bytes
call 0 0 0 CreateSafetyRule {"AssertionRule":{"Name":"xxxxxxxxxxxxxxxxxxxxxxxxxxxxxxxxxxxxxxxxxxxxxxxxxxxxxxxxxxxxxxxxx","ControlPanelArn":1,"AssertedControls":1,"RuleConfig":1,"WaitPeriodMs":"x"}}
---- status 6
script line 1: BadName

== an assertion without ControlPanelArn
call 0 0 0 CreateSafetyRule {"AssertionRule":{"Name":"a","AssertedControls":1,"RuleConfig":1,"WaitPeriodMs":"x"}}
---- status 6
script line 1: MissingMember

== an assertion with ControlPanelArn that is a number
call 0 0 0 CreateSafetyRule {"AssertionRule":{"Name":"a","ControlPanelArn":1,"AssertedControls":1,"RuleConfig":1,"WaitPeriodMs":"x"}}
---- status 6
script line 1: WrongType

== an assertion with ControlPanelArn of another kind
call 0 0 0 CreateSafetyRule {"AssertionRule":{"Name":"a","ControlPanelArn":"arn:arc:control/0000000000000001","AssertedControls":1,"RuleConfig":1,"WaitPeriodMs":"x"}}
---- status 6
script line 1: BadId

== an assertion without AssertedControls
call 0 0 0 CreateSafetyRule {"AssertionRule":{"Name":"a","ControlPanelArn":"arn:arc:panel/0000000000000001","RuleConfig":1,"WaitPeriodMs":"x"}}
---- status 6
script line 1: MissingMember

== an assertion with AssertedControls that are a number
call 0 0 0 CreateSafetyRule {"AssertionRule":{"Name":"a","ControlPanelArn":"arn:arc:panel/0000000000000001","AssertedControls":1,"RuleConfig":1,"WaitPeriodMs":"x"}}
---- status 6
script line 1: WrongType

== an assertion with AssertedControls that are empty
call 0 0 0 CreateSafetyRule {"AssertionRule":{"Name":"a","ControlPanelArn":"arn:arc:panel/0000000000000001","AssertedControls":[],"RuleConfig":1,"WaitPeriodMs":"x"}}
---- status 6
script line 1: EmptyEntries

== an assertion with AssertedControls of 33 items, whatever they are
call 0 0 0 CreateSafetyRule {"AssertionRule":{"Name":"a","ControlPanelArn":"arn:arc:panel/0000000000000001","AssertedControls":[1,1,1,1,1,1,1,1,1,1,1,1,1,1,1,1,1,1,1,1,1,1,1,1,1,1,1,1,1,1,1,1,1],"RuleConfig":1,"WaitPeriodMs":"x"}}
---- status 6
script line 1: TooManyEntries

== an assertion with AssertedControls that hold null
call 0 0 0 CreateSafetyRule {"AssertionRule":{"Name":"a","ControlPanelArn":"arn:arc:panel/0000000000000001","AssertedControls":[null],"RuleConfig":1,"WaitPeriodMs":"x"}}
---- status 6
script line 1: WrongType

== an assertion with AssertedControls that hold a panel
call 0 0 0 CreateSafetyRule {"AssertionRule":{"Name":"a","ControlPanelArn":"arn:arc:panel/0000000000000001","AssertedControls":["arn:arc:control/0000000000000001","arn:arc:panel/0000000000000001",1],"RuleConfig":1,"WaitPeriodMs":"x"}}
---- status 6
script line 1: BadId

== an assertion with AssertedControls that hold one control twice
call 0 0 0 CreateSafetyRule {"AssertionRule":{"Name":"a","ControlPanelArn":"arn:arc:panel/0000000000000001","AssertedControls":["arn:arc:control/0000000000000001","arn:arc:control/0000000000000002","arn:arc:control/0000000000000001"],"RuleConfig":1,"WaitPeriodMs":"x"}}
---- status 6
script line 1: DoubledEntry

== an assertion with AssertedControls of which all are read before doubles are found
call 0 0 0 CreateSafetyRule {"AssertionRule":{"Name":"a","ControlPanelArn":"arn:arc:panel/0000000000000001","AssertedControls":["arn:arc:control/0000000000000001","arn:arc:control/0000000000000001",1],"RuleConfig":1,"WaitPeriodMs":"x"}}
---- status 6
script line 1: WrongType

== an assertion without RuleConfig
call 0 0 0 CreateSafetyRule {"AssertionRule":{"Name":"a","ControlPanelArn":"arn:arc:panel/0000000000000001","AssertedControls":["arn:arc:control/0000000000000001","arn:arc:control/0000000000000002"],"WaitPeriodMs":"x"}}
---- status 6
script line 1: MissingMember

== an assertion with RuleConfig that is a number
call 0 0 0 CreateSafetyRule {"AssertionRule":{"Name":"a","ControlPanelArn":"arn:arc:panel/0000000000000001","AssertedControls":["arn:arc:control/0000000000000001","arn:arc:control/0000000000000002"],"RuleConfig":1,"WaitPeriodMs":"x"}}
---- status 6
script line 1: WrongType

== an assertion with RuleConfig that is a list
call 0 0 0 CreateSafetyRule {"AssertionRule":{"Name":"a","ControlPanelArn":"arn:arc:panel/0000000000000001","AssertedControls":["arn:arc:control/0000000000000001","arn:arc:control/0000000000000002"],"RuleConfig":[],"WaitPeriodMs":"x"}}
---- status 6
script line 1: WrongType

== an assertion without WaitPeriodMs
call 0 0 0 CreateSafetyRule {"AssertionRule":{"Name":"a","ControlPanelArn":"arn:arc:panel/0000000000000001","AssertedControls":["arn:arc:control/0000000000000001","arn:arc:control/0000000000000002"],"RuleConfig":{"Type":"AND"}}}
---- status 6
script line 1: MissingMember

== an assertion with WaitPeriodMs that are a text
call 0 0 0 CreateSafetyRule {"AssertionRule":{"Name":"a","ControlPanelArn":"arn:arc:panel/0000000000000001","AssertedControls":["arn:arc:control/0000000000000001","arn:arc:control/0000000000000002"],"RuleConfig":{"Type":"AND"},"WaitPeriodMs":"0"}}
---- status 6
script line 1: WrongType

== an assertion with WaitPeriodMs below 0
call 0 0 0 CreateSafetyRule {"AssertionRule":{"Name":"a","ControlPanelArn":"arn:arc:panel/0000000000000001","AssertedControls":["arn:arc:control/0000000000000001","arn:arc:control/0000000000000002"],"RuleConfig":{"Type":"AND"},"WaitPeriodMs":-1}}
---- status 6
script line 1: WrongType

== an assertion with WaitPeriodMs of more than seven days
call 0 0 0 CreateSafetyRule {"AssertionRule":{"Name":"a","ControlPanelArn":"arn:arc:panel/0000000000000001","AssertedControls":["arn:arc:control/0000000000000001","arn:arc:control/0000000000000002"],"RuleConfig":{"Type":"AND"},"WaitPeriodMs":604800001}}
---- status 6
script line 1: BadWait

== an assertion with WaitPeriodMs of 2 to the power of 32
call 0 0 0 CreateSafetyRule {"AssertionRule":{"Name":"a","ControlPanelArn":"arn:arc:panel/0000000000000001","AssertedControls":["arn:arc:control/0000000000000001","arn:arc:control/0000000000000002"],"RuleConfig":{"Type":"AND"},"WaitPeriodMs":4294967296}}
---- status 6
script line 1: BadWait

== a configuration without a type
call 0 0 0 CreateSafetyRule {"AssertionRule":{"Name":"a","ControlPanelArn":"arn:arc:panel/0000000000000001","AssertedControls":["arn:arc:control/0000000000000001","arn:arc:control/0000000000000002"],"RuleConfig":{"Threshold":"x"},"WaitPeriodMs":"x"}}
---- status 6
script line 1: MissingMember

== a configuration whose type is null
call 0 0 0 CreateSafetyRule {"AssertionRule":{"Name":"a","ControlPanelArn":"arn:arc:panel/0000000000000001","AssertedControls":["arn:arc:control/0000000000000001","arn:arc:control/0000000000000002"],"RuleConfig":{"Type":null},"WaitPeriodMs":"x"}}
---- status 6
script line 1: MissingMember

== a configuration whose type is a number
call 0 0 0 CreateSafetyRule {"AssertionRule":{"Name":"a","ControlPanelArn":"arn:arc:panel/0000000000000001","AssertedControls":["arn:arc:control/0000000000000001","arn:arc:control/0000000000000002"],"RuleConfig":{"Type":1,"Threshold":"x"},"WaitPeriodMs":"x"}}
---- status 6
script line 1: WrongType

== a type that isn't there
call 0 0 0 CreateSafetyRule {"AssertionRule":{"Name":"a","ControlPanelArn":"arn:arc:panel/0000000000000001","AssertedControls":["arn:arc:control/0000000000000001","arn:arc:control/0000000000000002"],"RuleConfig":{"Type":"XOR","Threshold":"x"},"WaitPeriodMs":"x"}}
---- status 6
script line 1: BadType

== a type in small letters
call 0 0 0 CreateSafetyRule {"AssertionRule":{"Name":"a","ControlPanelArn":"arn:arc:panel/0000000000000001","AssertedControls":["arn:arc:control/0000000000000001","arn:arc:control/0000000000000002"],"RuleConfig":{"Type":"and"},"WaitPeriodMs":"x"}}
---- status 6
script line 1: BadType

== a type with its threshold behind it
call 0 0 0 CreateSafetyRule {"AssertionRule":{"Name":"a","ControlPanelArn":"arn:arc:panel/0000000000000001","AssertedControls":["arn:arc:control/0000000000000001","arn:arc:control/0000000000000002"],"RuleConfig":{"Type":"ATLEAST:1"},"WaitPeriodMs":"x"}}
---- status 6
script line 1: BadType

== an empty type
call 0 0 0 CreateSafetyRule {"AssertionRule":{"Name":"a","ControlPanelArn":"arn:arc:panel/0000000000000001","AssertedControls":["arn:arc:control/0000000000000001","arn:arc:control/0000000000000002"],"RuleConfig":{"Type":""},"WaitPeriodMs":"x"}}
---- status 6
script line 1: BadType

== an inverted type is no type
call 0 0 0 CreateSafetyRule {"AssertionRule":{"Name":"a","ControlPanelArn":"arn:arc:panel/0000000000000001","AssertedControls":["arn:arc:control/0000000000000001","arn:arc:control/0000000000000002"],"RuleConfig":{"Type":"!AND"},"WaitPeriodMs":"x"}}
---- status 6
script line 1: BadType

== AND with a threshold that is a text
call 0 0 0 CreateSafetyRule {"AssertionRule":{"Name":"a","ControlPanelArn":"arn:arc:panel/0000000000000001","AssertedControls":["arn:arc:control/0000000000000001","arn:arc:control/0000000000000002"],"RuleConfig":{"Type":"AND","Threshold":"1"},"WaitPeriodMs":"x"}}
---- status 6
script line 1: WrongType

== OR with a threshold below 0
call 0 0 0 CreateSafetyRule {"AssertionRule":{"Name":"a","ControlPanelArn":"arn:arc:panel/0000000000000001","AssertedControls":["arn:arc:control/0000000000000001","arn:arc:control/0000000000000002"],"RuleConfig":{"Type":"OR","Threshold":-1},"WaitPeriodMs":"x"}}
---- status 6
script line 1: WrongType

== AND with a threshold of 2 to the power of 64
call 0 0 0 CreateSafetyRule {"AssertionRule":{"Name":"a","ControlPanelArn":"arn:arc:panel/0000000000000001","AssertedControls":["arn:arc:control/0000000000000001","arn:arc:control/0000000000000002"],"RuleConfig":{"Type":"AND","Threshold":18446744073709551616},"WaitPeriodMs":"x"}}
---- status 6
script line 1: WrongType

== OR with a threshold that has a fraction
call 0 0 0 CreateSafetyRule {"AssertionRule":{"Name":"a","ControlPanelArn":"arn:arc:panel/0000000000000001","AssertedControls":["arn:arc:control/0000000000000001","arn:arc:control/0000000000000002"],"RuleConfig":{"Type":"OR","Threshold":0.0},"WaitPeriodMs":"x"}}
---- status 6
script line 1: WrongType

== OR with a threshold that is minus 0
call 0 0 0 CreateSafetyRule {"AssertionRule":{"Name":"a","ControlPanelArn":"arn:arc:panel/0000000000000001","AssertedControls":["arn:arc:control/0000000000000001","arn:arc:control/0000000000000002"],"RuleConfig":{"Type":"OR","Threshold":-0},"WaitPeriodMs":"x"}}
---- status 6
script line 1: WrongType

== ATLEAST with a threshold that has an exponent
call 0 0 0 CreateSafetyRule {"AssertionRule":{"Name":"a","ControlPanelArn":"arn:arc:panel/0000000000000001","AssertedControls":["arn:arc:control/0000000000000001","arn:arc:control/0000000000000002"],"RuleConfig":{"Type":"ATLEAST","Threshold":1E0},"WaitPeriodMs":"x"}}
---- status 6
script line 1: WrongType

== ATLEAST without a threshold
call 0 0 0 CreateSafetyRule {"AssertionRule":{"Name":"a","ControlPanelArn":"arn:arc:panel/0000000000000001","AssertedControls":["arn:arc:control/0000000000000001","arn:arc:control/0000000000000002"],"RuleConfig":{"Type":"ATLEAST"},"WaitPeriodMs":"x"}}
---- status 6
script line 1: BadThreshold

== ATLEAST with a threshold that is null
call 0 0 0 CreateSafetyRule {"AssertionRule":{"Name":"a","ControlPanelArn":"arn:arc:panel/0000000000000001","AssertedControls":["arn:arc:control/0000000000000001","arn:arc:control/0000000000000002"],"RuleConfig":{"Type":"ATLEAST","Threshold":null},"WaitPeriodMs":"x"}}
---- status 6
script line 1: BadThreshold

== ATLEAST with a threshold of 0
call 0 0 0 CreateSafetyRule {"AssertionRule":{"Name":"a","ControlPanelArn":"arn:arc:panel/0000000000000001","AssertedControls":["arn:arc:control/0000000000000001","arn:arc:control/0000000000000002"],"RuleConfig":{"Type":"ATLEAST","Threshold":0},"WaitPeriodMs":"x"}}
---- status 6
script line 1: BadThreshold

== a threshold is tested before the inversion
call 0 0 0 CreateSafetyRule {"AssertionRule":{"Name":"a","ControlPanelArn":"arn:arc:panel/0000000000000001","AssertedControls":["arn:arc:control/0000000000000001","arn:arc:control/0000000000000002"],"RuleConfig":{"Type":"ATLEAST","Threshold":3,"Inverted":1},"WaitPeriodMs":"x"}}
---- status 6
script line 1: BadThreshold

== a threshold of 1 beyond 2 to the power of 16
call 0 0 0 CreateSafetyRule {"AssertionRule":{"Name":"a","ControlPanelArn":"arn:arc:panel/0000000000000001","AssertedControls":["arn:arc:control/0000000000000001","arn:arc:control/0000000000000002"],"RuleConfig":{"Type":"ATLEAST","Threshold":65537},"WaitPeriodMs":"x"}}
---- status 6
script line 1: BadThreshold

== the greatest threshold is too great
call 0 0 0 CreateSafetyRule {"AssertionRule":{"Name":"a","ControlPanelArn":"arn:arc:panel/0000000000000001","AssertedControls":["arn:arc:control/0000000000000001","arn:arc:control/0000000000000002"],"RuleConfig":{"Type":"ATLEAST","Threshold":18446744073709551615},"WaitPeriodMs":"x"}}
---- status 6
script line 1: BadThreshold

== an inversion that is a number
call 0 0 0 CreateSafetyRule {"AssertionRule":{"Name":"a","ControlPanelArn":"arn:arc:panel/0000000000000001","AssertedControls":["arn:arc:control/0000000000000001","arn:arc:control/0000000000000002"],"RuleConfig":{"Type":"ATLEAST","Threshold":2,"Inverted":1},"WaitPeriodMs":"x"}}
---- status 6
script line 1: WrongType

== an inversion that is a text
call 0 0 0 CreateSafetyRule {"AssertionRule":{"Name":"a","ControlPanelArn":"arn:arc:panel/0000000000000001","AssertedControls":["arn:arc:control/0000000000000001","arn:arc:control/0000000000000002"],"RuleConfig":{"Type":"AND","Inverted":"true"},"WaitPeriodMs":"x"}}
---- status 6
script line 1: WrongType

== an inversion that is a list
call 0 0 0 CreateSafetyRule {"AssertionRule":{"Name":"a","ControlPanelArn":"arn:arc:panel/0000000000000001","AssertedControls":["arn:arc:control/0000000000000001","arn:arc:control/0000000000000002"],"RuleConfig":{"Type":"OR","Inverted":[]},"WaitPeriodMs":"x"}}
---- status 6
script line 1: WrongType

== an assertion with gating controls lacks its asserted ones
call 0 0 0 CreateSafetyRule {"AssertionRule":{"Name":"a","ControlPanelArn":"arn:arc:panel/0000000000000001","GatingControls":["arn:arc:control/0000000000000001"],"RuleConfig":1,"WaitPeriodMs":"x"}}
---- status 6
script line 1: MissingMember

== a wait that is null is absent
call 0 0 0 CreateSafetyRule {"AssertionRule":{"Name":"a","ControlPanelArn":"arn:arc:panel/0000000000000001","AssertedControls":["arn:arc:control/0000000000000001","arn:arc:control/0000000000000002"],"RuleConfig":{"Type":"AND"},"WaitPeriodMs":null}}
---- status 6
script line 1: MissingMember

== DeleteSafetyRule without SafetyRuleArn
call 0 0 0 DeleteSafetyRule {}
---- status 6
script line 1: MissingMember

== DeleteSafetyRule with SafetyRuleArn that is a number
call 0 0 0 DeleteSafetyRule {"SafetyRuleArn":1}
---- status 6
script line 1: WrongType

== DeleteSafetyRule with SafetyRuleArn of another kind
call 0 0 0 DeleteSafetyRule {"SafetyRuleArn":"arn:arc:control/0000000000000001"}
---- status 6
script line 1: BadId

== ListSafetyRules without ControlPanelArn
call 0 0 0 ListSafetyRules {}
---- status 6
script line 1: MissingMember

== ListSafetyRules with ControlPanelArn that is a number
call 0 0 0 ListSafetyRules {"ControlPanelArn":1}
---- status 6
script line 1: WrongType

== ListSafetyRules with ControlPanelArn of another kind
call 0 0 0 ListSafetyRules {"ControlPanelArn":"arn:arc:rule/0000000000000001"}
---- status 6
script line 1: BadId
