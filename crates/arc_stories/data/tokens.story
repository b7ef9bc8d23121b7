# Tokens and list time: what a caller knows of the list, and what time the list goes by.

== a token ahead of the list is refused, and its command has a place all the same
new 0 0 0 a
new 0 0 0 b
new 0 0 0 c
new 0 0 0 d
get 0 0 9 1
get 0 0 5 1
----
slot 0 token 1 200 {"RoutingControl":{"ControlPanelArn":"arn:arc:panel/0000000000000001","Name":"a","RoutingControlArn":"arn:arc:control/0000000000000001"}}
slot 1 token 2 200 {"RoutingControl":{"ControlPanelArn":"arn:arc:panel/0000000000000001","Name":"b","RoutingControlArn":"arn:arc:control/0000000000000002"}}
slot 2 token 3 200 {"RoutingControl":{"ControlPanelArn":"arn:arc:panel/0000000000000001","Name":"c","RoutingControlArn":"arn:arc:control/0000000000000003"}}
slot 3 token 4 200 {"RoutingControl":{"ControlPanelArn":"arn:arc:panel/0000000000000001","Name":"d","RoutingControlArn":"arn:arc:control/0000000000000004"}}
slot 4 token 5 409 {"Place":4,"Reason":"TokenAhead","Token":9,"__type":"ConflictException"}
slot 5 token 6 200 {"RoutingControlArn":"arn:arc:control/0000000000000001","RoutingControlName":"a","RoutingControlState":"Off"}

== a token that is the length of the list is answered
new 0 0 0 a
new 0 0 0 b
new 0 0 0 c
new 0 0 0 d
get 0 0 4 1
----
slot 0 token 1 200 {"RoutingControl":{"ControlPanelArn":"arn:arc:panel/0000000000000001","Name":"a","RoutingControlArn":"arn:arc:control/0000000000000001"}}
slot 1 token 2 200 {"RoutingControl":{"ControlPanelArn":"arn:arc:panel/0000000000000001","Name":"b","RoutingControlArn":"arn:arc:control/0000000000000002"}}
slot 2 token 3 200 {"RoutingControl":{"ControlPanelArn":"arn:arc:panel/0000000000000001","Name":"c","RoutingControlArn":"arn:arc:control/0000000000000003"}}
slot 3 token 4 200 {"RoutingControl":{"ControlPanelArn":"arn:arc:panel/0000000000000001","Name":"d","RoutingControlArn":"arn:arc:control/0000000000000004"}}
slot 4 token 5 200 {"RoutingControlArn":"arn:arc:control/0000000000000001","RoutingControlName":"a","RoutingControlState":"Off"}

== a token one above the place is ahead, and at the next place it is answered
new 0 0 0 a
get 0 0 2 1
get 0 0 2 1
----
slot 0 token 1 200 {"RoutingControl":{"ControlPanelArn":"arn:arc:panel/0000000000000001","Name":"a","RoutingControlArn":"arn:arc:control/0000000000000001"}}
slot 1 token 2 409 {"Place":1,"Reason":"TokenAhead","Token":2,"__type":"ConflictException"}
slot 2 token 3 200 {"RoutingControlArn":"arn:arc:control/0000000000000001","RoutingControlName":"a","RoutingControlState":"Off"}

== the first command of a list may know of nothing
get 0 0 1 1
get 0 0 0 1
----
slot 0 token 1 409 {"Place":0,"Reason":"TokenAhead","Token":1,"__type":"ConflictException"}
slot 1 token 2 404 {"Reason":"NotFound","Resource":"arn:arc:control/0000000000000001","__type":"ResourceNotFoundException"}

== a caller that knows of nothing may always ask
new 0 0 0 a
set 0 0 1 1 On
get 0 0 0 1
----
slot 0 token 1 200 {"RoutingControl":{"ControlPanelArn":"arn:arc:panel/0000000000000001","Name":"a","RoutingControlArn":"arn:arc:control/0000000000000001"}}
slot 1 token 2 200 {}
slot 2 token 3 200 {"RoutingControlArn":"arn:arc:control/0000000000000001","RoutingControlName":"a","RoutingControlState":"On"}

== each reply carries the token of the next place, refused or not
new 0 0 0 a
new 0 0 1 a
get 0 0 2 7
get 0 0 9 1
get 0 0 4 1
----
slot 0 token 1 200 {"RoutingControl":{"ControlPanelArn":"arn:arc:panel/0000000000000001","Name":"a","RoutingControlArn":"arn:arc:control/0000000000000001"}}
slot 1 token 2 409 {"Reason":"NameTaken","Resource":"arn:arc:control/0000000000000001","__type":"ConflictException"}
slot 2 token 3 404 {"Reason":"NotFound","Resource":"arn:arc:control/0000000000000007","__type":"ResourceNotFoundException"}
slot 3 token 4 409 {"Place":3,"Reason":"TokenAhead","Token":9,"__type":"ConflictException"}
slot 4 token 5 200 {"RoutingControlArn":"arn:arc:control/0000000000000001","RoutingControlName":"a","RoutingControlState":"Off"}

== the greatest token is ahead of every list
new 0 0 0 a
get 0 0 18446744073709551615 1
----
slot 0 token 1 200 {"RoutingControl":{"ControlPanelArn":"arn:arc:panel/0000000000000001","Name":"a","RoutingControlArn":"arn:arc:control/0000000000000001"}}
slot 1 token 2 409 {"Place":1,"Reason":"TokenAhead","Token":18446744073709551615,"__type":"ConflictException"}

== a token ahead is told before anything else
get 0 0 9 7
call 0 0 9 DeleteControlPanel {"ControlPanelArn":"arn:arc:panel/0000000000000001"}
call 0 0 9 ListSafetyRules {"ControlPanelArn":"arn:arc:panel/0000000000000007"}
batch 0 0 9 7=On 7
----
slot 0 token 1 409 {"Place":0,"Reason":"TokenAhead","Token":9,"__type":"ConflictException"}
slot 1 token 2 409 {"Place":1,"Reason":"TokenAhead","Token":9,"__type":"ConflictException"}
slot 2 token 3 409 {"Place":2,"Reason":"TokenAhead","Token":9,"__type":"ConflictException"}
slot 3 token 4 409 {"Place":3,"Reason":"TokenAhead","Token":9,"__type":"ConflictException"}

== what comes with a token ahead isn't done
new 0 0 0 a
set 0 0 9 1 On
get 0 0 0 1
new 0 0 9 b
assert 0 0 9 r !OR 0 1
call 0 0 9 DeleteRoutingControl {"RoutingControlArn":"arn:arc:control/0000000000000001"}
call 0 0 0 ListRoutingControls
call 0 0 0 ListSafetyRules {"ControlPanelArn":"arn:arc:panel/0000000000000001"}
----
slot 0 token 1 200 {"RoutingControl":{"ControlPanelArn":"arn:arc:panel/0000000000000001","Name":"a","RoutingControlArn":"arn:arc:control/0000000000000001"}}
slot 1 token 2 409 {"Place":1,"Reason":"TokenAhead","Token":9,"__type":"ConflictException"}
slot 2 token 3 200 {"RoutingControlArn":"arn:arc:control/0000000000000001","RoutingControlName":"a","RoutingControlState":"Off"}
slot 3 token 4 409 {"Place":3,"Reason":"TokenAhead","Token":9,"__type":"ConflictException"}
slot 4 token 5 409 {"Place":4,"Reason":"TokenAhead","Token":9,"__type":"ConflictException"}
slot 5 token 6 409 {"Place":5,"Reason":"TokenAhead","Token":9,"__type":"ConflictException"}
slot 6 token 7 200 {"RoutingControls":[{"ControlPanelArn":"arn:arc:panel/0000000000000001","RoutingControlArn":"arn:arc:control/0000000000000001","RoutingControlName":"a","RoutingControlState":"Off"}]}
slot 7 token 8 200 {"SafetyRules":[]}

== tokens of lists are looked at too
call 0 0 0 ListManagedResources
call 0 0 1 ListRoutingControls
call 0 0 9 ListRoutingControls
call 0 0 4 ListRoutingControls
call 0 0 4 ListRoutingControls
----
slot 0 token 1 200 {"items":[]}
slot 1 token 2 200 {"RoutingControls":[]}
slot 2 token 3 409 {"Place":2,"Reason":"TokenAhead","Token":9,"__type":"ConflictException"}
slot 3 token 4 409 {"Place":3,"Reason":"TokenAhead","Token":4,"__type":"ConflictException"}
slot 4 token 5 200 {"RoutingControls":[]}

== list time doesn't fall
new 0 0 0 a
new 0 0 0 b
assert 0 0 0 w OR 100 1,2
set 0 1000 0 1 On
set 0 0 0 2 On
set 0 1099 0 2 On
set 0 500 0 2 On
set 0 1100 0 2 On
----
slot 0 token 1 200 {"RoutingControl":{"ControlPanelArn":"arn:arc:panel/0000000000000001","Name":"a","RoutingControlArn":"arn:arc:control/0000000000000001"}}
slot 1 token 2 200 {"RoutingControl":{"ControlPanelArn":"arn:arc:panel/0000000000000001","Name":"b","RoutingControlArn":"arn:arc:control/0000000000000002"}}
slot 2 token 3 200 {"SafetyRuleArn":"arn:arc:rule/0000000000000001"}
slot 3 token 4 200 {}
slot 4 token 5 409 {"Reason":"Forbidden","Rules":[{"Cause":"Waiting","SafetyRuleArn":"arn:arc:rule/0000000000000001","Until":1100}],"__type":"ConflictException"}
slot 5 token 6 409 {"Reason":"Forbidden","Rules":[{"Cause":"Waiting","SafetyRuleArn":"arn:arc:rule/0000000000000001","Until":1100}],"__type":"ConflictException"}
slot 6 token 7 409 {"Reason":"Forbidden","Rules":[{"Cause":"Waiting","SafetyRuleArn":"arn:arc:rule/0000000000000001","Until":1100}],"__type":"ConflictException"}
slot 7 token 8 200 {}

== list time stands still where nothing later is called
new 0 0 0 a
new 0 0 0 b
assert 0 0 0 w OR 1 1,2
set 0 7 0 1 On
loop n 4 9
set 0 7 0 2 On
endloop
set 0 8 0 2 On
----
slot 0 token 1 200 {"RoutingControl":{"ControlPanelArn":"arn:arc:panel/0000000000000001","Name":"a","RoutingControlArn":"arn:arc:control/0000000000000001"}}
slot 1 token 2 200 {"RoutingControl":{"ControlPanelArn":"arn:arc:panel/0000000000000001","Name":"b","RoutingControlArn":"arn:arc:control/0000000000000002"}}
slot 2 token 3 200 {"SafetyRuleArn":"arn:arc:rule/0000000000000001"}
slot 3 token 4 200 {}
loop n 4 9
slot {n} token {n+1} 409 {"Reason":"Forbidden","Rules":[{"Cause":"Waiting","SafetyRuleArn":"arn:arc:rule/0000000000000001","Until":8}],"__type":"ConflictException"}
endloop
slot 10 token 11 200 {}

== a refused command moves list time
new 0 0 0 a
new 0 0 0 b
assert 0 0 0 w OR 100 1,2
set 0 0 0 1 On
set 0 50 0 2 On
new 0 100 0 a
set 0 0 0 2 On
----
slot 0 token 1 200 {"RoutingControl":{"ControlPanelArn":"arn:arc:panel/0000000000000001","Name":"a","RoutingControlArn":"arn:arc:control/0000000000000001"}}
slot 1 token 2 200 {"RoutingControl":{"ControlPanelArn":"arn:arc:panel/0000000000000001","Name":"b","RoutingControlArn":"arn:arc:control/0000000000000002"}}
slot 2 token 3 200 {"SafetyRuleArn":"arn:arc:rule/0000000000000001"}
slot 3 token 4 200 {}
slot 4 token 5 409 {"Reason":"Forbidden","Rules":[{"Cause":"Waiting","SafetyRuleArn":"arn:arc:rule/0000000000000001","Until":100}],"__type":"ConflictException"}
slot 5 token 6 409 {"Reason":"NameTaken","Resource":"arn:arc:control/0000000000000001","__type":"ConflictException"}
slot 6 token 7 200 {}

== a command with a token ahead moves list time
new 0 0 0 a
new 0 0 0 b
assert 0 0 0 w OR 100 1,2
set 0 0 0 1 On
get 0 100 9 1
set 0 0 0 2 On
----
slot 0 token 1 200 {"RoutingControl":{"ControlPanelArn":"arn:arc:panel/0000000000000001","Name":"a","RoutingControlArn":"arn:arc:control/0000000000000001"}}
slot 1 token 2 200 {"RoutingControl":{"ControlPanelArn":"arn:arc:panel/0000000000000001","Name":"b","RoutingControlArn":"arn:arc:control/0000000000000002"}}
slot 2 token 3 200 {"SafetyRuleArn":"arn:arc:rule/0000000000000001"}
slot 3 token 4 200 {}
slot 4 token 5 409 {"Place":4,"Reason":"TokenAhead","Token":9,"__type":"ConflictException"}
slot 5 token 6 200 {}

== a read moves list time
new 0 0 0 a
new 0 0 0 b
assert 0 0 0 w OR 100 1,2
set 0 0 0 1 On
call 0 100 0 ListRoutingControls
set 0 0 0 2 On
----
slot 0 token 1 200 {"RoutingControl":{"ControlPanelArn":"arn:arc:panel/0000000000000001","Name":"a","RoutingControlArn":"arn:arc:control/0000000000000001"}}
slot 1 token 2 200 {"RoutingControl":{"ControlPanelArn":"arn:arc:panel/0000000000000001","Name":"b","RoutingControlArn":"arn:arc:control/0000000000000002"}}
slot 2 token 3 200 {"SafetyRuleArn":"arn:arc:rule/0000000000000001"}
slot 3 token 4 200 {}
slot 4 token 5 200 {"RoutingControls":[{"ControlPanelArn":"arn:arc:panel/0000000000000001","RoutingControlArn":"arn:arc:control/0000000000000001","RoutingControlName":"a","RoutingControlState":"On"},{"ControlPanelArn":"arn:arc:panel/0000000000000001","RoutingControlArn":"arn:arc:control/0000000000000002","RoutingControlName":"b","RoutingControlState":"Off"}]}
slot 5 token 6 200 {}

== a call that finds its node down doesn't move list time
new 0 0 0 a
new 0 0 0 b
assert 0 0 0 w OR 100 1,2
set 0 0 0 1 On
crash 0
get 0 100 0 1
restart 0
set 0 0 0 2 On
----
slot 0 token 1 200 {"RoutingControl":{"ControlPanelArn":"arn:arc:panel/0000000000000001","Name":"a","RoutingControlArn":"arn:arc:control/0000000000000001"}}
slot 1 token 2 200 {"RoutingControl":{"ControlPanelArn":"arn:arc:panel/0000000000000001","Name":"b","RoutingControlArn":"arn:arc:control/0000000000000002"}}
slot 2 token 3 200 {"SafetyRuleArn":"arn:arc:rule/0000000000000001"}
slot 3 token 4 200 {}
crash 0
down 0
restart 0 up 2
slot 4 token 5 409 {"Reason":"Forbidden","Rules":[{"Cause":"Waiting","SafetyRuleArn":"arn:arc:rule/0000000000000001","Until":100}],"__type":"ConflictException"}

== list time goes up to the last millisecond of the year 9999
new 0 253402300799999 0 a
get 0 0 0 1
----
slot 0 token 1 200 {"RoutingControl":{"ControlPanelArn":"arn:arc:panel/0000000000000001","Name":"a","RoutingControlArn":"arn:arc:control/0000000000000001"}}
slot 1 token 2 200 {"RoutingControlArn":"arn:arc:control/0000000000000001","RoutingControlName":"a","RoutingControlState":"Off"}
