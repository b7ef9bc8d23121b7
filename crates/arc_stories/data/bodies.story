# Bodies: what JSON has to be before its members are looked at, and what is true of the members of each operation.
# The tests come in this order: the body is JSON, it is an object, then each member in its order. An operation's own
# members stand in the stories of its kind.

== a body without members
call 0 0 0 ListManagedResources {}
----
slot 0 token 1 200 {"items":[]}

== members that an operation doesn't have are passed over
call 0 0 0 ListManagedResources {"ClientToken":"x","ClusterArn":[{"a":[null,-1.5e3,true]}]}
----
slot 0 token 1 200 {"items":[]}

== a member that is passed over may have any type and stand before the others
call 0 0 0 GetRoutingControlState {"ClientToken":1,"RoutingControlArn":"arn:arc:control/0000000000000001"}
----
slot 0 token 1 404 {"Reason":"NotFound","Resource":"arn:arc:control/0000000000000001","__type":"ResourceNotFoundException"}

== a number that is passed over may have a fraction, an exponent and any sign
call 0 0 0 ListManagedResources {"a":-0,"b":1e308,"c":-1.25E-400,"d":18446744073709551616}
----
slot 0 token 1 200 {"items":[]}

== members may stand in any order
call 0 0 0 CreateRoutingControl {"ControlPanelArn":"arn:arc:panel/0000000000000001","RoutingControlName":"a"}
----
slot 0 token 1 200 {"RoutingControl":{"ControlPanelArn":"arn:arc:panel/0000000000000001","Name":"a","RoutingControlArn":"arn:arc:control/0000000000000001"}}

== the last of two members of one name counts
call 0 0 0 CreateControlPanel {"ControlPanelName":1,"ControlPanelName":"b"}
----
slot 0 token 1 200 {"ControlPanel":{"ControlPanelArn":"arn:arc:panel/0000000000000002","Name":"b"}}

== the last of three members of one name counts, though one before it is null
call 0 0 0 CreateControlPanel {"ControlPanelName":"a","ControlPanelName":null,"ControlPanelName":"b"}
----
slot 0 token 1 200 {"ControlPanel":{"ControlPanelArn":"arn:arc:panel/0000000000000002","Name":"b"}}

== a last member that is null is absent
call 0 0 0 ListRoutingControls {"ControlPanelArn":"arn:arc:panel/0000000000000002","ControlPanelArn":null}
----
slot 0 token 1 200 {"RoutingControls":[]}

== a member that is null is absent
call 0 0 0 ListRoutingControls {"ControlPanelArn":null}
----
slot 0 token 1 200 {"RoutingControls":[]}

== names of members and texts may be escaped
call 0 0 0 CreateControlPanel {"Control\u0050anelName":"\u00fc\n\/"}
----
slot 0 token 1 200 {"ControlPanel":{"ControlPanelArn":"arn:arc:panel/0000000000000002","Name":"ü\n/"}}

== a pair of surrogates is one letter
call 0 0 0 CreateControlPanel {"ControlPanelName":"\ud83c\udf0d"}
----
slot 0 token 1 200 {"ControlPanel":{"ControlPanelArn":"arn:arc:panel/0000000000000002","Name":"🌍"}}

== a text may hold a zero
call 0 0 0 CreateControlPanel {"ControlPanelName":"\u0000"}
----
slot 0 token 1 200 {"ControlPanel":{"ControlPanelArn":"arn:arc:panel/0000000000000002","Name":"\u0000"}}

== a text is measured without its escapes
call 0 0 0 CreateControlPanel {"ControlPanelName":"\u0061\u0061\u0061\u0061\u0061\u0061\u0061\u0061\u0061\u0061\u0061\u0061\u0061\u0061\u0061\u0061\u0061\u0061\u0061\u0061\u0061\u0061\u0061\u0061\u0061\u0061\u0061\u0061\u0061\u0061\u0061\u0061\u0061\u0061\u0061\u0061\u0061\u0061\u0061\u0061\u0061\u0061\u0061\u0061\u0061\u0061\u0061\u0061\u0061\u0061\u0061\u0061\u0061\u0061\u0061\u0061\u0061\u0061\u0061\u0061\u0061\u0061\u0061\u0061"}
----
slot 0 token 1 200 {"ControlPanel":{"ControlPanelArn":"arn:arc:panel/0000000000000002","Name":"aaaaaaaaaaaaaaaaaaaaaaaaaaaaaaaaaaaaaaaaaaaaaaaaaaaaaaaaaaaaaaaa"}}

== a body that is cut
call 0 0 0 ListManagedResources {
---- status 6
script line 1: BadJson

== a list that is cut
call 0 0 0 ListManagedResources [1
---- status 6
script line 1: BadJson

== a text that is cut
call 0 0 0 ListManagedResources {"a":"x
---- status 6
script line 1: BadJson

== something behind the object
call 0 0 0 ListManagedResources {}x
---- status 6
script line 1: BadJson

== an object behind the object
call 0 0 0 ListManagedResources {}{}
---- status 6
script line 1: BadJson

== a comma behind the last member
call 0 0 0 ListManagedResources {"a":1,}
---- status 6
script line 1: BadJson

== a comma behind the last item
call 0 0 0 ListManagedResources {"a":[1,]}
---- status 6
script line 1: BadJson

== names in single quotes
call 0 0 0 ListManagedResources {'a':1}
---- status 6
script line 1: BadJson

== names without quotes
call 0 0 0 ListManagedResources {a:1}
---- status 6
script line 1: BadJson

== a name without a value
call 0 0 0 ListManagedResources {"a"}
---- status 6
script line 1: BadJson

== a comment
call 0 0 0 ListManagedResources {}//
---- status 6
script line 1: BadJson

== a number with a leading zero
call 0 0 0 ListManagedResources {"a":01}
---- status 6
script line 1: BadJson

== a number with a plus sign
call 0 0 0 ListManagedResources {"a":+1}
---- status 6
script line 1: BadJson

== a number that ends in its point
call 0 0 0 ListManagedResources {"a":1.}
---- status 6
script line 1: BadJson

== a number without a digit before its point
call 0 0 0 ListManagedResources {"a":.5}
---- status 6
script line 1: BadJson

== a word that JSON doesn't have
call 0 0 0 ListManagedResources {"a":NaN}
---- status 6
script line 1: BadJson

== a word in capital letters
call 0 0 0 ListManagedResources {"a":TRUE}
---- status 6
script line 1: BadJson

== a number beyond all range, though it is passed over
call 0 0 0 ListManagedResources {"a":1e400}
---- status 6
script line 1: BadJson

== half of a surrogate pair, though it is passed over
call 0 0 0 ListManagedResources {"a":"\ud800"}
---- status 6
script line 1: BadJson

== the second half of a surrogate pair alone
call 0 0 0 ListManagedResources {"a":"\udc00"}
---- status 6
script line 1: BadJson

== two first halves of a surrogate pair
call 0 0 0 ListManagedResources {"a":"\ud800\ud800"}
---- status 6
script line 1: BadJson

== a tab inside a text, though it is passed over
call 0 0 0 ListManagedResources {"a":"	"}
---- status 6
script line 1: BadJson

== an escape that JSON doesn't have
call 0 0 0 ListManagedResources {"a":"\x41"}
---- status 6
script line 1: BadJson

== an escape that is cut
call 0 0 0 ListManagedResources {"a":"\u00f"}
---- status 6
script line 1: BadJson

== a byte order mark before the object
call 0 0 0 ListManagedResources ﻿{}
---- status 6
script line 1: BadJson

== JSON is tested before the members
call 0 0 0 CreateControlPanel {"ControlPanelName":1,}
---- status 6
script line 1: BadJson

== an empty list is no object
call 0 0 0 ListManagedResources []
---- status 6
script line 1: NotObject

== null is no object
call 0 0 0 ListManagedResources null
---- status 6
script line 1: NotObject

== a number is no object
call 0 0 0 ListManagedResources 1.5
---- status 6
script line 1: NotObject

== a text that holds an object is no object
call 0 0 0 ListManagedResources "{}"
---- status 6
script line 1: NotObject

== true is no object
call 0 0 0 ListManagedResources true
---- status 6
script line 1: NotObject

== an object in a list is no object
call 0 0 0 CreateControlPanel [{"ControlPanelName":"a"}]
---- status 6
script line 1: NotObject

== lists may stand in each other 127 deep
call 0 0 0 ListManagedResources [[[[[[[[[[[[[[[[[[[[[[[[[[[[[[[[[[[[[[[[[[[[[[[[[[[[[[[[[[[[[[[[[[[[[[[[[[[[[[[[[[[[[[[[[[[[[[[[[[[[[[[[[[[[[[[[[[[[[[[[[[[[[[[]]]]]]]]]]]]]]]]]]]]]]]]]]]]]]]]]]]]]]]]]]]]]]]]]]]]]]]]]]]]]]]]]]]]]]]]]]]]]]]]]]]]]]]]]]]]]]]]]]]]]]]]]]]]]]]]]]]]]]]]]]]]]]]
---- status 6
script line 1: NotObject

== lists may not stand in each other 128 deep
call 0 0 0 ListManagedResources [[[[[[[[[[[[[[[[[[[[[[[[[[[[[[[[[[[[[[[[[[[[[[[[[[[[[[[[[[[[[[[[[[[[[[[[[[[[[[[[[[[[[[[[[[[[[[[[[[[[[[[[[[[[[[[[[[[[[[[[[[[[[[[[]]]]]]]]]]]]]]]]]]]]]]]]]]]]]]]]]]]]]]]]]]]]]]]]]]]]]]]]]]]]]]]]]]]]]]]]]]]]]]]]]]]]]]]]]]]]]]]]]]]]]]]]]]]]]]]]]]]]]]]]]]]]]]]]
---- status 6
script line 1: BadJson

== objects may stand in each other 127 deep
call 0 0 0 ListManagedResources {"a":{"a":{"a":{"a":{"a":{"a":{"a":{"a":{"a":{"a":{"a":{"a":{"a":{"a":{"a":{"a":{"a":{"a":{"a":{"a":{"a":{"a":{"a":{"a":{"a":{"a":{"a":{"a":{"a":{"a":{"a":{"a":{"a":{"a":{"a":{"a":{"a":{"a":{"a":{"a":{"a":{"a":{"a":{"a":{"a":{"a":{"a":{"a":{"a":{"a":{"a":{"a":{"a":{"a":{"a":{"a":{"a":{"a":{"a":{"a":{"a":{"a":{"a":{"a":{"a":{"a":{"a":{"a":{"a":{"a":{"a":{"a":{"a":{"a":{"a":{"a":{"a":{"a":{"a":{"a":{"a":{"a":{"a":{"a":{"a":{"a":{"a":{"a":{"a":{"a":{"a":{"a":{"a":{"a":{"a":{"a":{"a":{"a":{"a":{"a":{"a":{"a":{"a":{"a":{"a":{"a":{"a":{"a":{"a":{"a":{"a":{"a":{"a":{"a":{"a":{"a":{"a":{"a":{"a":{"a":{"a":{"a":{"a":{"a":{"a":{"a":{}}}}}}}}}}}}}}}}}}}}}}}}}}}}}}}}}}}}}}}}}}}}}}}}}}}}}}}}}}}}}}}}}}}}}}}}}}}}}}}}}}}}}}}}}}}}}}}}}}}}}}}}}}}}}}}}}}}}}}}}}}}}}}}
----
slot 0 token 1 200 {"items":[]}

== objects may not stand in each other 128 deep
call 0 0 0 ListManagedResources {"a":{"a":{"a":{"a":{"a":{"a":{"a":{"a":{"a":{"a":{"a":{"a":{"a":{"a":{"a":{"a":{"a":{"a":{"a":{"a":{"a":{"a":{"a":{"a":{"a":{"a":{"a":{"a":{"a":{"a":{"a":{"a":{"a":{"a":{"a":{"a":{"a":{"a":{"a":{"a":{"a":{"a":{"a":{"a":{"a":{"a":{"a":{"a":{"a":{"a":{"a":{"a":{"a":{"a":{"a":{"a":{"a":{"a":{"a":{"a":{"a":{"a":{"a":{"a":{"a":{"a":{"a":{"a":{"a":{"a":{"a":{"a":{"a":{"a":{"a":{"a":{"a":{"a":{"a":{"a":{"a":{"a":{"a":{"a":{"a":{"a":{"a":{"a":{"a":{"a":{"a":{"a":{"a":{"a":{"a":{"a":{"a":{"a":{"a":{"a":{"a":{"a":{"a":{"a":{"a":{"a":{"a":{"a":{"a":{"a":{"a":{"a":{"a":{"a":{"a":{"a":{"a":{"a":{"a":{"a":{"a":{"a":{"a":{"a":{"a":{"a":{"a":{}}}}}}}}}}}}}}}}}}}}}}}}}}}}}}}}}}}}}}}}}}}}}}}}}}}}}}}}}}}}}}}}}}}}}}}}}}}}}}}}}}}}}}}}}}}}}}}}}}}}}}}}}}}}}}}}}}}}}}}}}}}}}}}}
---- status 6
script line 1: BadJson

== a member where there is no body is missing
call 0 0 0 CreateControlPanel
---- status 6
script line 1: MissingMember

== a member in an empty object is missing
call 0 0 0 CreateControlPanel {}
---- status 6
script line 1: MissingMember

== a member that is spelled in other letters is missing
call 0 0 0 CreateControlPanel {"controlPanelName":"a"}
---- status 6
script line 1: MissingMember

== a member with a blank in its name is missing
call 0 0 0 CreateControlPanel {"ControlPanelName ":"a"}
---- status 6
script line 1: MissingMember

== a member that is null is missing
call 0 0 0 CreateControlPanel {"ControlPanelName":null}
---- status 6
script line 1: MissingMember

== a member that is null the last time is missing
call 0 0 0 CreateControlPanel {"ControlPanelName":"a","ControlPanelName":null}
---- status 6
script line 1: MissingMember

== a member inside another is missing
call 0 0 0 CreateControlPanel {"a":{"ControlPanelName":"a"}}
---- status 6
script line 1: MissingMember

== a number is no text
call 0 0 0 CreateControlPanel {"ControlPanelName":1}
---- status 6
script line 1: WrongType

== a list is no text
call 0 0 0 CreateControlPanel {"ControlPanelName":["a"]}
---- status 6
script line 1: WrongType

== an object is no text
call 0 0 0 CreateControlPanel {"ControlPanelName":{}}
---- status 6
script line 1: WrongType

== true is no text
call 0 0 0 CreateControlPanel {"ControlPanelName":true}
---- status 6
script line 1: WrongType

== a number the last time is no text
call 0 0 0 CreateControlPanel {"ControlPanelName":"a","ControlPanelName":1}
---- status 6
script line 1: WrongType

== an optional member has its type too
call 0 0 0 ListRoutingControls {"ControlPanelArn":false}
---- status 6
script line 1: WrongType

== an optional member has its rule too
call 0 0 0 ListRoutingControls {"ControlPanelArn":""}
---- status 6
script line 1: BadId

== a number with a fraction of 0 is no whole number
call 0 0 0 UpdateSafetyRule {"AssertionRuleUpdate":{"SafetyRuleArn":"arn:arc:rule/0000000000000001","Name":"a","WaitPeriodMs":1.0}}
---- status 6
script line 1: WrongType

== a number with an exponent is no whole number
call 0 0 0 UpdateSafetyRule {"AssertionRuleUpdate":{"SafetyRuleArn":"arn:arc:rule/0000000000000001","Name":"a","WaitPeriodMs":1e3}}
---- status 6
script line 1: WrongType

== a number with an exponent of 0 is no whole number
call 0 0 0 UpdateSafetyRule {"AssertionRuleUpdate":{"SafetyRuleArn":"arn:arc:rule/0000000000000001","Name":"a","WaitPeriodMs":1E0}}
---- status 6
script line 1: WrongType

== a number that is minus 0 is no whole number
call 0 0 0 UpdateSafetyRule {"AssertionRuleUpdate":{"SafetyRuleArn":"arn:arc:rule/0000000000000001","Name":"a","WaitPeriodMs":-0}}
---- status 6
script line 1: WrongType

== a number below 0 is no whole number
call 0 0 0 UpdateSafetyRule {"AssertionRuleUpdate":{"SafetyRuleArn":"arn:arc:rule/0000000000000001","Name":"a","WaitPeriodMs":-1}}
---- status 6
script line 1: WrongType

== a number of 2 to the power of 64 is no whole number
call 0 0 0 UpdateSafetyRule {"AssertionRuleUpdate":{"SafetyRuleArn":"arn:arc:rule/0000000000000001","Name":"a","WaitPeriodMs":18446744073709551616}}
---- status 6
script line 1: WrongType

== a number in quotes is no whole number
call 0 0 0 UpdateSafetyRule {"AssertionRuleUpdate":{"SafetyRuleArn":"arn:arc:rule/0000000000000001","Name":"a","WaitPeriodMs":"1"}}
---- status 6
script line 1: WrongType

== the greatest whole number is one
call 0 0 0 UpdateSafetyRule {"AssertionRuleUpdate":{"SafetyRuleArn":"arn:arc:rule/0000000000000001","Name":"a","WaitPeriodMs":18446744073709551615}}
---- status 6
script line 1: BadWait

== 0 is a whole number
call 0 0 0 UpdateSafetyRule {"AssertionRuleUpdate":{"SafetyRuleArn":"arn:arc:rule/0000000000000001","Name":"a","WaitPeriodMs":0}}
----
slot 0 token 1 404 {"Reason":"NotFound","Resource":"arn:arc:rule/0000000000000001","__type":"ResourceNotFoundException"}
