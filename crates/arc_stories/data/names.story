# Names of panels, controls and rules, and how a reply spells them.

== a name has letters of any script
new 0 0 0 zürich-東京-🌍
----
slot 0 token 1 200 {"RoutingControl":{"ControlPanelArn":"arn:arc:panel/0000000000000001","Name":"zürich-東京-🌍","RoutingControlArn":"arn:arc:control/0000000000000001"}}

== quotes and backslashes of a name are escaped, a slash isn't
new 0 0 0 "\/
----
slot 0 token 1 200 {"RoutingControl":{"ControlPanelArn":"arn:arc:panel/0000000000000001","Name":"\"\\/","RoutingControlArn":"arn:arc:control/0000000000000001"}}

== control characters of a name are escaped, the last of ASCII isn't
new 0 0 0 	.
----
slot 0 token 1 200 {"RoutingControl":{"ControlPanelArn":"arn:arc:panel/0000000000000001","Name":"\u0001\t\r.\u001f","RoutingControlArn":"arn:arc:control/0000000000000001"}}

== the short escapes are used where JSON has them
call 0 0 0 CreateRoutingControl {"RoutingControlName":"\u0008\u000c\u000a\u000d\u0009"}
----
slot 0 token 1 200 {"RoutingControl":{"ControlPanelArn":"arn:arc:panel/0000000000000001","Name":"\b\f\n\r\t","RoutingControlArn":"arn:arc:control/0000000000000001"}}

== a name has up to 64 bytes, and is told whole
new 0 0 0 nnnnnnnnnnnnnnnnnnnnnnnnnnnnnnnnnnnnnnnnnnnnnnnnnnnnnnnnnnnnnnnn
get 0 0 0 1
call 0 0 0 CreateControlPanel {"ControlPanelName":"nnnnnnnnnnnnnnnnnnnnnnnnnnnnnnnnnnnnnnnnnnnnnnnnnnnnnnnnnnnnnnnn"}
assert 0 0 0 nnnnnnnnnnnnnnnnnnnnnnnnnnnnnnnnnnnnnnnnnnnnnnnnnnnnnnnnnnnnnnnn OR 0 1
call 0 0 0 ListSafetyRules {"ControlPanelArn":"arn:arc:panel/0000000000000001"}
----
slot 0 token 1 200 {"RoutingControl":{"ControlPanelArn":"arn:arc:panel/0000000000000001","Name":"nnnnnnnnnnnnnnnnnnnnnnnnnnnnnnnnnnnnnnnnnnnnnnnnnnnnnnnnnnnnnnnn","RoutingControlArn":"arn:arc:control/0000000000000001"}}
slot 1 token 2 200 {"RoutingControlArn":"arn:arc:control/0000000000000001","RoutingControlName":"nnnnnnnnnnnnnnnnnnnnnnnnnnnnnnnnnnnnnnnnnnnnnnnnnnnnnnnnnnnnnnnn","RoutingControlState":"Off"}
slot 2 token 3 200 {"ControlPanel":{"ControlPanelArn":"arn:arc:panel/0000000000000002","Name":"nnnnnnnnnnnnnnnnnnnnnnnnnnnnnnnnnnnnnnnnnnnnnnnnnnnnnnnnnnnnnnnn"}}
slot 3 token 4 200 {"SafetyRuleArn":"arn:arc:rule/0000000000000001"}
slot 4 token 5 200 {"SafetyRules":[{"Name":"nnnnnnnnnnnnnnnnnnnnnnnnnnnnnnnnnnnnnnnnnnnnnnnnnnnnnnnnnnnnnnnn","SafetyRuleArn":"arn:arc:rule/0000000000000001","Type":"ASSERTION","WaitPeriodMs":0}]}

== bytes count, not letters
new 0 0 0 東東東東東東東東東東東東東東東東東東東東東x
----
slot 0 token 1 200 {"RoutingControl":{"ControlPanelArn":"arn:arc:panel/0000000000000001","Name":"東東東東東東東東東東東東東東東東東東東東東x","RoutingControlArn":"arn:arc:control/0000000000000001"}}

== a letter too many is no name
new 0 0 0 東東東東東東東東東東東東東東東東東東東東東xx
---- status 6
script line 1: Name

== a name of one byte is one
new 0 0 0 x
----
slot 0 token 1 200 {"RoutingControl":{"ControlPanelArn":"arn:arc:panel/0000000000000001","Name":"x","RoutingControlArn":"arn:arc:control/0000000000000001"}}

== a name is one name however its text is spelled
call 0 0 0 CreateRoutingControl {"RoutingControlName":"zürich"}
call 0 0 0 CreateRoutingControl {"RoutingControlName":"z\u00fcrich"}
new 0 0 0 zürich
----
slot 0 token 1 200 {"RoutingControl":{"ControlPanelArn":"arn:arc:panel/0000000000000001","Name":"zürich","RoutingControlArn":"arn:arc:control/0000000000000001"}}
slot 1 token 2 409 {"Reason":"NameTaken","Resource":"arn:arc:control/0000000000000001","__type":"ConflictException"}
slot 2 token 3 409 {"Reason":"NameTaken","Resource":"arn:arc:control/0000000000000001","__type":"ConflictException"}

== letters that look alike are two names
new 0 0 0 é
new 0 0 0 é
----
slot 0 token 1 200 {"RoutingControl":{"ControlPanelArn":"arn:arc:panel/0000000000000001","Name":"é","RoutingControlArn":"arn:arc:control/0000000000000001"}}
slot 1 token 2 200 {"RoutingControl":{"ControlPanelArn":"arn:arc:panel/0000000000000001","Name":"é","RoutingControlArn":"arn:arc:control/0000000000000002"}}

== blanks belong to a name
call 0 0 0 CreateRoutingControl {"RoutingControlName":"cell a"}
call 0 0 0 CreateRoutingControl {"RoutingControlName":"cell a "}
call 0 0 0 CreateRoutingControl {"RoutingControlName":"cell a"}
----
slot 0 token 1 200 {"RoutingControl":{"ControlPanelArn":"arn:arc:panel/0000000000000001","Name":"cell a","RoutingControlArn":"arn:arc:control/0000000000000001"}}
slot 1 token 2 200 {"RoutingControl":{"ControlPanelArn":"arn:arc:panel/0000000000000001","Name":"cell a ","RoutingControlArn":"arn:arc:control/0000000000000002"}}
slot 2 token 3 409 {"Reason":"NameTaken","Resource":"arn:arc:control/0000000000000001","__type":"ConflictException"}

== names of panels and rules are escaped like those of controls
call 0 0 0 CreateControlPanel {"ControlPanelName":"\"a\""}
call 0 0 0 CreateRoutingControl {"RoutingControlName":"\"b\"","ControlPanelArn":"arn:arc:panel/0000000000000002"}
call 0 0 0 CreateSafetyRule {"AssertionRule":{"Name":"\"c\"","ControlPanelArn":"arn:arc:panel/0000000000000002","AssertedControls":["arn:arc:control/0000000000000001"],"RuleConfig":{"Type":"OR"},"WaitPeriodMs":0}}
call 0 0 0 ListRoutingControls {"ControlPanelArn":"arn:arc:panel/0000000000000002"}
call 0 0 0 ListSafetyRules {"ControlPanelArn":"arn:arc:panel/0000000000000002"}
call 0 0 0 UpdateSafetyRule {"AssertionRuleUpdate":{"SafetyRuleArn":"arn:arc:rule/0000000000000001","Name":"\\","WaitPeriodMs":0}}
call 0 0 0 ListSafetyRules {"ControlPanelArn":"arn:arc:panel/0000000000000002"}
----
slot 0 token 1 200 {"ControlPanel":{"ControlPanelArn":"arn:arc:panel/0000000000000002","Name":"\"a\""}}
slot 1 token 2 200 {"RoutingControl":{"ControlPanelArn":"arn:arc:panel/0000000000000002","Name":"\"b\"","RoutingControlArn":"arn:arc:control/0000000000000001"}}
slot 2 token 3 200 {"SafetyRuleArn":"arn:arc:rule/0000000000000001"}
slot 3 token 4 200 {"RoutingControls":[{"ControlPanelArn":"arn:arc:panel/0000000000000002","RoutingControlArn":"arn:arc:control/0000000000000001","RoutingControlName":"\"b\"","RoutingControlState":"Off"}]}
slot 4 token 5 200 {"SafetyRules":[{"Name":"\"c\"","SafetyRuleArn":"arn:arc:rule/0000000000000001","Type":"ASSERTION","WaitPeriodMs":0}]}
slot 5 token 6 200 {}
slot 6 token 7 200 {"SafetyRules":[{"Name":"\\","SafetyRuleArn":"arn:arc:rule/0000000000000001","Type":"ASSERTION","WaitPeriodMs":0}]}
