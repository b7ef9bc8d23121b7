# A node and its list: how long it may get, a crash, a start.

== a list may be as short as one command
slots 1
get 0 0 0 1
get 0 0 0 1
----
slots 1
slot 0 token 1 404 {"Reason":"NotFound","Resource":"arn:arc:control/0000000000000001","__type":"ResourceNotFoundException"}
full 1

== a list may be as long as 16,384 commands
slots 16384
get 0 0 0 1
----
slots 16384
slot 0 token 1 404 {"Reason":"NotFound","Resource":"arn:arc:control/0000000000000001","__type":"ResourceNotFoundException"}

== a list of eight is full after eight calls
slots 8
loop n 0 7
get 0 0 0 1
endloop
get 0 0 0 1
----
slots 8
loop n 0 7
slot {n} token {n+1} 404 {"Reason":"NotFound","Resource":"arn:arc:control/0000000000000001","__type":"ResourceNotFoundException"}
endloop
full 8

== without a word on it a list is full after 4,096 calls
loop n 0 4095
get 0 0 0 1
endloop
get 0 0 0 1
----
loop n 0 4095
slot {n} token {n+1} 404 {"Reason":"NotFound","Resource":"arn:arc:control/0000000000000001","__type":"ResourceNotFoundException"}
endloop
full 4096

== a full list takes no call of any kind, and says so each time
slots 2
new 0 0 0 a
set 0 0 0 1 On
get 0 0 0 1
set 0 0 9 1 Off
call 0 0 0 ListRoutingControls
restart 0
get 0 0 0 1
----
slots 2
slot 0 token 1 200 {"RoutingControl":{"ControlPanelArn":"arn:arc:panel/0000000000000001","Name":"a","RoutingControlArn":"arn:arc:control/0000000000000001"}}
slot 1 token 2 200 {}
full 2
full 2
full 2
restart 0 up 2
full 2

== a full list is told also where the node is down
slots 1
get 0 0 0 1
get 0 0 0 1
crash 0
get 0 0 0 1
----
slots 1
slot 0 token 1 404 {"Reason":"NotFound","Resource":"arn:arc:control/0000000000000001","__type":"ResourceNotFoundException"}
full 1
crash 0
full 1

== a refused call fills a place of the list too
slots 2
get 0 0 9 1
new 0 0 0 a
new 0 0 0 b
----
slots 2
slot 0 token 1 409 {"Place":0,"Reason":"TokenAhead","Token":9,"__type":"ConflictException"}
slot 1 token 2 200 {"RoutingControl":{"ControlPanelArn":"arn:arc:panel/0000000000000001","Name":"a","RoutingControlArn":"arn:arc:control/0000000000000001"}}
full 2

== a node is down from a crash on until it is started
slots 4
new 0 0 0 a
crash 0
get 0 0 0 1
restart 0
get 0 0 1 1
----
slots 4
slot 0 token 1 200 {"RoutingControl":{"ControlPanelArn":"arn:arc:panel/0000000000000001","Name":"a","RoutingControlArn":"arn:arc:control/0000000000000001"}}
crash 0
down 0
restart 0 up 2
slot 1 token 2 200 {"RoutingControlArn":"arn:arc:control/0000000000000001","RoutingControlName":"a","RoutingControlState":"Off"}

== a node that is up may be started again
restart 0
get 0 0 0 1
----
restart 0 up 2
slot 0 token 1 404 {"Reason":"NotFound","Resource":"arn:arc:control/0000000000000001","__type":"ResourceNotFoundException"}

== starts are numbered without a gap, whatever crashes lie between
crash 0
crash 0
restart 0
restart 0
crash 0
restart 0
----
crash 0
crash 0
restart 0 up 2
restart 0 up 3
crash 0
restart 0 up 4

== a call that finds its node down has no place, and isn't done later
new 0 0 0 a
crash 0
set 0 0 1 1 On
new 0 0 0 b
restart 0
get 0 0 1 1
new 0 0 0 b
----
slot 0 token 1 200 {"RoutingControl":{"ControlPanelArn":"arn:arc:panel/0000000000000001","Name":"a","RoutingControlArn":"arn:arc:control/0000000000000001"}}
crash 0
down 0
down 0
restart 0 up 2
slot 1 token 2 200 {"RoutingControlArn":"arn:arc:control/0000000000000001","RoutingControlName":"a","RoutingControlState":"Off"}
slot 2 token 3 200 {"RoutingControl":{"ControlPanelArn":"arn:arc:panel/0000000000000001","Name":"b","RoutingControlArn":"arn:arc:control/0000000000000002"}}

== a node that is down says so as often as it is asked
crash 0
get 0 0 0 1
get 0 0 9 1
----
crash 0
down 0
down 0

== switches, panels, rules and list time are there after a crash
call 0 0 0 CreateControlPanel {"ControlPanelName":"ops"}
new 0 0 0 a
new 0 0 0 b
new 0 0 0 gone
call 0 0 0 DeleteRoutingControl {"RoutingControlArn":"arn:arc:control/0000000000000003"}
assert 0 0 0 w OR 100 1,2
set 0 1000 0 1 On
crash 0
restart 0
call 0 0 0 ListRoutingControls
call 0 0 0 ListSafetyRules {"ControlPanelArn":"arn:arc:panel/0000000000000001"}
set 0 0 0 1 Off
set 0 1099 0 2 On
set 0 1100 0 2 On
# The numbers of what was deleted aren't drawn again.
new 0 0 0 c
call 0 0 0 CreateControlPanel {"ControlPanelName":"ops"}
----
slot 0 token 1 200 {"ControlPanel":{"ControlPanelArn":"arn:arc:panel/0000000000000002","Name":"ops"}}
slot 1 token 2 200 {"RoutingControl":{"ControlPanelArn":"arn:arc:panel/0000000000000001","Name":"a","RoutingControlArn":"arn:arc:control/0000000000000001"}}
slot 2 token 3 200 {"RoutingControl":{"ControlPanelArn":"arn:arc:panel/0000000000000001","Name":"b","RoutingControlArn":"arn:arc:control/0000000000000002"}}
slot 3 token 4 200 {"RoutingControl":{"ControlPanelArn":"arn:arc:panel/0000000000000001","Name":"gone","RoutingControlArn":"arn:arc:control/0000000000000003"}}
slot 4 token 5 200 {}
slot 5 token 6 200 {"SafetyRuleArn":"arn:arc:rule/0000000000000001"}
slot 6 token 7 200 {}
crash 0
restart 0 up 2
slot 7 token 8 200 {"RoutingControls":[{"ControlPanelArn":"arn:arc:panel/0000000000000001","RoutingControlArn":"arn:arc:control/0000000000000001","RoutingControlName":"a","RoutingControlState":"On"},{"ControlPanelArn":"arn:arc:panel/0000000000000001","RoutingControlArn":"arn:arc:control/0000000000000002","RoutingControlName":"b","RoutingControlState":"Off"}]}
slot 8 token 9 200 {"SafetyRules":[{"Name":"w","SafetyRuleArn":"arn:arc:rule/0000000000000001","Type":"ASSERTION","WaitPeriodMs":100}]}
slot 9 token 10 409 {"Reason":"Forbidden","Rules":[{"Cause":"AssertFalse","SafetyRuleArn":"arn:arc:rule/0000000000000001"}],"__type":"ConflictException"}
slot 10 token 11 409 {"Reason":"Forbidden","Rules":[{"Cause":"Waiting","SafetyRuleArn":"arn:arc:rule/0000000000000001","Until":1100}],"__type":"ConflictException"}
slot 11 token 12 200 {}
slot 12 token 13 200 {"RoutingControl":{"ControlPanelArn":"arn:arc:panel/0000000000000001","Name":"c","RoutingControlArn":"arn:arc:control/0000000000000004"}}
slot 13 token 14 409 {"Reason":"NameTaken","Resource":"arn:arc:panel/0000000000000002","__type":"ConflictException"}

== a token is as good after a crash as before
new 0 0 0 a
crash 0
restart 0
get 0 0 1 1
get 0 0 3 1
----
slot 0 token 1 200 {"RoutingControl":{"ControlPanelArn":"arn:arc:panel/0000000000000001","Name":"a","RoutingControlArn":"arn:arc:control/0000000000000001"}}
crash 0
restart 0 up 2
slot 1 token 2 200 {"RoutingControlArn":"arn:arc:control/0000000000000001","RoutingControlName":"a","RoutingControlState":"Off"}
slot 2 token 3 409 {"Place":2,"Reason":"TokenAhead","Token":3,"__type":"ConflictException"}

== a journal takes eighty entries where the list takes one command, and each start is one
slots 1
loop n 2 80
restart 0
endloop
restart 0
get 0 0 0 1
----
slots 1
loop n 2 80
restart 0 up {n}
endloop
restart 0 full 80
down 0

== a journal that is full takes its node down at the next call
slots 1
loop n 2 80
restart 0
endloop
get 0 0 0 1
restart 0
----
slots 1
loop n 2 80
restart 0 up {n}
endloop
down 0
restart 0 full 80

== a node whose journal is full stays down
slots 1
loop n 2 80
restart 0
endloop
restart 0
crash 0
restart 0
get 0 0 0 1
----
slots 1
loop n 2 80
restart 0 up {n}
endloop
restart 0 full 80
crash 0
restart 0 full 80
down 0

== the last entry of a journal may be a call
slots 1
loop n 2 79
restart 0
endloop
get 0 0 0 1
restart 0
get 0 0 0 1
----
slots 1
loop n 2 79
restart 0 up {n}
endloop
slot 0 token 1 404 {"Reason":"NotFound","Resource":"arn:arc:control/0000000000000001","__type":"ResourceNotFoundException"}
restart 0 full 80
full 1

== a journal takes sixteen entries more for each command that the list takes
slots 2
loop n 2 96
restart 0
endloop
restart 0
----
slots 2
loop n 2 96
restart 0 up {n}
endloop
restart 0 full 96
