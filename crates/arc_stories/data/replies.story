# Replies: the text and the status of each answer and of each refusal. Texts are compact JSON, members in ascending order
# of the bytes of their names.

== what has nothing to tell is an empty object
new 0 0 0 a
set 0 0 0 1 On
----
slot 0 token 1 200 {"RoutingControl":{"ControlPanelArn":"arn:arc:panel/0000000000000001","Name":"a","RoutingControlArn":"arn:arc:control/0000000000000001"}}
slot 1 token 2 200 {}

== a new panel
call 0 0 0 CreateControlPanel {"ControlPanelName":"ops"}
----
slot 0 token 1 200 {"ControlPanel":{"ControlPanelArn":"arn:arc:panel/0000000000000002","Name":"ops"}}

== a new control
new 0 0 0 cell-a
----
slot 0 token 1 200 {"RoutingControl":{"ControlPanelArn":"arn:arc:panel/0000000000000001","Name":"cell-a","RoutingControlArn":"arn:arc:control/0000000000000001"}}

== the state of a control
new 0 0 0 a
set 0 0 0 1 On
get 0 0 0 1
----
slot 0 token 1 200 {"RoutingControl":{"ControlPanelArn":"arn:arc:panel/0000000000000001","Name":"a","RoutingControlArn":"arn:arc:control/0000000000000001"}}
slot 1 token 2 200 {}
slot 2 token 3 200 {"RoutingControlArn":"arn:arc:control/0000000000000001","RoutingControlName":"a","RoutingControlState":"On"}

== lists without items
call 0 0 0 ListRoutingControls
call 0 0 0 ListSafetyRules {"ControlPanelArn":"arn:arc:panel/0000000000000001"}
call 0 0 0 ListManagedResources
call 0 0 0 ListZonalShifts
----
slot 0 token 1 200 {"RoutingControls":[]}
slot 1 token 2 200 {"SafetyRules":[]}
slot 2 token 3 200 {"items":[]}
slot 3 token 4 200 {"items":[]}

== controls in a list
new 0 0 0 b
new 0 0 0 a
set 0 0 0 1 On
call 0 0 0 ListRoutingControls
----
slot 0 token 1 200 {"RoutingControl":{"ControlPanelArn":"arn:arc:panel/0000000000000001","Name":"b","RoutingControlArn":"arn:arc:control/0000000000000001"}}
slot 1 token 2 200 {"RoutingControl":{"ControlPanelArn":"arn:arc:panel/0000000000000001","Name":"a","RoutingControlArn":"arn:arc:control/0000000000000002"}}
slot 2 token 3 200 {}
slot 3 token 4 200 {"RoutingControls":[{"ControlPanelArn":"arn:arc:panel/0000000000000001","RoutingControlArn":"arn:arc:control/0000000000000001","RoutingControlName":"b","RoutingControlState":"On"},{"ControlPanelArn":"arn:arc:panel/0000000000000001","RoutingControlArn":"arn:arc:control/0000000000000002","RoutingControlName":"a","RoutingControlState":"Off"}]}

== a new rule
new 0 0 0 a
assert 0 0 0 r AND 0 1
----
slot 0 token 1 200 {"RoutingControl":{"ControlPanelArn":"arn:arc:panel/0000000000000001","Name":"a","RoutingControlArn":"arn:arc:control/0000000000000001"}}
slot 1 token 2 200 {"SafetyRuleArn":"arn:arc:rule/0000000000000001"}

== rules in a list tell their kinds
new 0 0 0 a
gate 0 0 0 guarded AND 60000 1 1
assert 0 0 0 one OR 0 1
call 0 0 0 ListSafetyRules {"ControlPanelArn":"arn:arc:panel/0000000000000001"}
----
slot 0 token 1 200 {"RoutingControl":{"ControlPanelArn":"arn:arc:panel/0000000000000001","Name":"a","RoutingControlArn":"arn:arc:control/0000000000000001"}}
slot 1 token 2 200 {"SafetyRuleArn":"arn:arc:rule/0000000000000001"}
slot 2 token 3 200 {"SafetyRuleArn":"arn:arc:rule/0000000000000002"}
slot 3 token 4 200 {"SafetyRules":[{"Name":"guarded","SafetyRuleArn":"arn:arc:rule/0000000000000001","Type":"GATING","WaitPeriodMs":60000},{"Name":"one","SafetyRuleArn":"arn:arc:rule/0000000000000002","Type":"ASSERTION","WaitPeriodMs":0}]}

== a new resource
call 0 0 0 RegisterManagedResource {"name":"r","availabilityZones":["z"]}
----
slot 0 token 1 200 {"resourceIdentifier":"arn:arc:resource/0000000000000001"}

== a resource to which nothing is applied
call 0 0 0 RegisterManagedResource {"name":"lb","availabilityZones":["use1-az1","use1-az2"]}
call 0 0 0 GetManagedResource {"resourceIdentifier":"arn:arc:resource/0000000000000001"}
----
slot 0 token 1 200 {"resourceIdentifier":"arn:arc:resource/0000000000000001"}
slot 1 token 2 200 {"appliedShift":null,"availabilityZones":["use1-az1","use1-az2"],"name":"lb","resourceIdentifier":"arn:arc:resource/0000000000000001","zonalAutoshiftStatus":"DISABLED"}

== a resource tells a shift of the customer
call 0 0 0 RegisterManagedResource {"name":"r","availabilityZones":["z"]}
call 0 0 0 StartZonalShift {"resourceIdentifier":"arn:arc:resource/0000000000000001","awayFrom":"z","expiresIn":"1m","comment":""}
call 0 0 0 GetManagedResource {"resourceIdentifier":"arn:arc:resource/0000000000000001"}
----
slot 0 token 1 200 {"resourceIdentifier":"arn:arc:resource/0000000000000001"}
slot 1 token 2 200 {"awayFrom":"z","comment":"","expiryTime":60000,"resourceIdentifier":"arn:arc:resource/0000000000000001","startTime":0,"status":"ACTIVE","zonalShiftId":"00000000-0000-0000-0000-000000000001"}
slot 2 token 3 200 {"appliedShift":{"awayFrom":"z","kind":"CUSTOMER"},"availabilityZones":["z"],"name":"r","resourceIdentifier":"arn:arc:resource/0000000000000001","zonalAutoshiftStatus":"DISABLED"}

== a resource tells an autoshift
call 0 0 0 RegisterManagedResource {"name":"r","availabilityZones":["z"]}
call 0 0 0 CreatePracticeRunConfiguration {"resourceIdentifier":"arn:arc:resource/0000000000000001","outcomeAlarms":[{"alarmIdentifier":"o"}]}
call 0 0 0 UpdateZonalAutoshiftConfiguration {"resourceIdentifier":"arn:arc:resource/0000000000000001","zonalAutoshiftStatus":"ENABLED"}
call 0 0 0 StartAutoshift {"awayFrom":"z"}
call 0 0 0 GetManagedResource {"resourceIdentifier":"arn:arc:resource/0000000000000001"}
----
slot 0 token 1 200 {"resourceIdentifier":"arn:arc:resource/0000000000000001"}
slot 1 token 2 200 {}
slot 2 token 3 200 {"resourceIdentifier":"arn:arc:resource/0000000000000001","zonalAutoshiftStatus":"ENABLED"}
slot 3 token 4 200 {}
slot 4 token 5 200 {"appliedShift":{"awayFrom":"z","kind":"AUTOSHIFT"},"availabilityZones":["z"],"name":"r","resourceIdentifier":"arn:arc:resource/0000000000000001","zonalAutoshiftStatus":"ENABLED"}

== a resource tells a practice run
call 0 0 0 RegisterManagedResource {"name":"r","availabilityZones":["z"]}
call 0 0 0 CreatePracticeRunConfiguration {"resourceIdentifier":"arn:arc:resource/0000000000000001","outcomeAlarms":[{"alarmIdentifier":"o"}]}
call 0 0 0 StartPracticeRun {"resourceIdentifier":"arn:arc:resource/0000000000000001","awayFrom":"z","comment":""}
call 0 0 0 GetManagedResource {"resourceIdentifier":"arn:arc:resource/0000000000000001"}
----
slot 0 token 1 200 {"resourceIdentifier":"arn:arc:resource/0000000000000001"}
slot 1 token 2 200 {}
slot 2 token 3 200 {"awayFrom":"z","comment":"","expiryTime":1800000,"practiceRunOutcome":"PENDING","resourceIdentifier":"arn:arc:resource/0000000000000001","startTime":0,"status":"ACTIVE","zonalShiftId":"00000000-0000-0000-0000-000000000001"}
slot 3 token 4 200 {"appliedShift":{"awayFrom":"z","kind":"PRACTICE_RUN"},"availabilityZones":["z"],"name":"r","resourceIdentifier":"arn:arc:resource/0000000000000001","zonalAutoshiftStatus":"DISABLED"}

== resources in a list
call 0 0 0 RegisterManagedResource {"name":"s","availabilityZones":["z"]}
call 0 0 0 RegisterManagedResource {"name":"r","availabilityZones":["z"]}
call 0 0 0 ListManagedResources
----
slot 0 token 1 200 {"resourceIdentifier":"arn:arc:resource/0000000000000001"}
slot 1 token 2 200 {"resourceIdentifier":"arn:arc:resource/0000000000000002"}
slot 2 token 3 200 {"items":[{"name":"s","resourceIdentifier":"arn:arc:resource/0000000000000001"},{"name":"r","resourceIdentifier":"arn:arc:resource/0000000000000002"}]}

== a shift of the customer has no outcome
call 0 0 0 RegisterManagedResource {"name":"r","availabilityZones":["z"]}
call 0 7 0 StartZonalShift {"resourceIdentifier":"arn:arc:resource/0000000000000001","awayFrom":"z","expiresIn":"4320m","comment":"x"}
----
slot 0 token 1 200 {"resourceIdentifier":"arn:arc:resource/0000000000000001"}
slot 1 token 2 200 {"awayFrom":"z","comment":"x","expiryTime":259200007,"resourceIdentifier":"arn:arc:resource/0000000000000001","startTime":7,"status":"ACTIVE","zonalShiftId":"00000000-0000-0000-0000-000000000001"}

== a shift and a run in a list
call 0 0 0 RegisterManagedResource {"name":"r","availabilityZones":["z"]}
call 0 0 0 CreatePracticeRunConfiguration {"resourceIdentifier":"arn:arc:resource/0000000000000001","outcomeAlarms":[{"alarmIdentifier":"o"}]}
call 0 0 0 StartPracticeRun {"resourceIdentifier":"arn:arc:resource/0000000000000001","awayFrom":"z","comment":""}
call 0 1 0 StartZonalShift {"resourceIdentifier":"arn:arc:resource/0000000000000001","awayFrom":"z","expiresIn":"1m","comment":""}
call 0 1 0 ListZonalShifts
----
slot 0 token 1 200 {"resourceIdentifier":"arn:arc:resource/0000000000000001"}
slot 1 token 2 200 {}
slot 2 token 3 200 {"awayFrom":"z","comment":"","expiryTime":1800000,"practiceRunOutcome":"PENDING","resourceIdentifier":"arn:arc:resource/0000000000000001","startTime":0,"status":"ACTIVE","zonalShiftId":"00000000-0000-0000-0000-000000000001"}
slot 3 token 4 200 {"awayFrom":"z","comment":"","expiryTime":60001,"resourceIdentifier":"arn:arc:resource/0000000000000001","startTime":1,"status":"ACTIVE","zonalShiftId":"00000000-0000-0000-0000-000000000002"}
slot 4 token 5 200 {"items":[{"awayFrom":"z","comment":"","expiryTime":1800000,"practiceRunOutcome":"INTERRUPTED","resourceIdentifier":"arn:arc:resource/0000000000000001","startTime":0,"status":"CANCELED","zonalShiftId":"00000000-0000-0000-0000-000000000001"},{"awayFrom":"z","comment":"","expiryTime":60001,"resourceIdentifier":"arn:arc:resource/0000000000000001","startTime":1,"status":"ACTIVE","zonalShiftId":"00000000-0000-0000-0000-000000000002"}]}

== a pending run is active
call 0 0 0 RegisterManagedResource {"name":"r","availabilityZones":["z"]}
call 0 0 0 CreatePracticeRunConfiguration {"resourceIdentifier":"arn:arc:resource/0000000000000001","outcomeAlarms":[{"alarmIdentifier":"o"}]}
call 0 0 0 StartPracticeRun {"resourceIdentifier":"arn:arc:resource/0000000000000001","awayFrom":"z","comment":""}
call 0 1799999 0 ListZonalShifts
----
slot 0 token 1 200 {"resourceIdentifier":"arn:arc:resource/0000000000000001"}
slot 1 token 2 200 {}
slot 2 token 3 200 {"awayFrom":"z","comment":"","expiryTime":1800000,"practiceRunOutcome":"PENDING","resourceIdentifier":"arn:arc:resource/0000000000000001","startTime":0,"status":"ACTIVE","zonalShiftId":"00000000-0000-0000-0000-000000000001"}
slot 3 token 4 200 {"items":[{"awayFrom":"z","comment":"","expiryTime":1800000,"practiceRunOutcome":"PENDING","resourceIdentifier":"arn:arc:resource/0000000000000001","startTime":0,"status":"ACTIVE","zonalShiftId":"00000000-0000-0000-0000-000000000001"}]}

== a run that succeeded is expired
call 0 0 0 RegisterManagedResource {"name":"r","availabilityZones":["z"]}
call 0 0 0 CreatePracticeRunConfiguration {"resourceIdentifier":"arn:arc:resource/0000000000000001","outcomeAlarms":[{"alarmIdentifier":"o"}]}
call 0 0 0 StartPracticeRun {"resourceIdentifier":"arn:arc:resource/0000000000000001","awayFrom":"z","comment":""}
call 0 1800000 0 ListZonalShifts
----
slot 0 token 1 200 {"resourceIdentifier":"arn:arc:resource/0000000000000001"}
slot 1 token 2 200 {}
slot 2 token 3 200 {"awayFrom":"z","comment":"","expiryTime":1800000,"practiceRunOutcome":"PENDING","resourceIdentifier":"arn:arc:resource/0000000000000001","startTime":0,"status":"ACTIVE","zonalShiftId":"00000000-0000-0000-0000-000000000001"}
slot 3 token 4 200 {"items":[{"awayFrom":"z","comment":"","expiryTime":1800000,"practiceRunOutcome":"SUCCEEDED","resourceIdentifier":"arn:arc:resource/0000000000000001","startTime":0,"status":"EXPIRED","zonalShiftId":"00000000-0000-0000-0000-000000000001"}]}

== a run that failed is cancelled
call 0 0 0 RegisterManagedResource {"name":"r","availabilityZones":["z"]}
call 0 0 0 CreatePracticeRunConfiguration {"resourceIdentifier":"arn:arc:resource/0000000000000001","outcomeAlarms":[{"alarmIdentifier":"o"}]}
call 0 0 0 StartPracticeRun {"resourceIdentifier":"arn:arc:resource/0000000000000001","awayFrom":"z","comment":""}
call 0 1799999 0 SetAlarmState {"alarmIdentifier":"o","state":"ALARM"}
call 0 1799999 0 ListZonalShifts
----
slot 0 token 1 200 {"resourceIdentifier":"arn:arc:resource/0000000000000001"}
slot 1 token 2 200 {}
slot 2 token 3 200 {"awayFrom":"z","comment":"","expiryTime":1800000,"practiceRunOutcome":"PENDING","resourceIdentifier":"arn:arc:resource/0000000000000001","startTime":0,"status":"ACTIVE","zonalShiftId":"00000000-0000-0000-0000-000000000001"}
slot 3 token 4 200 {}
slot 4 token 5 200 {"items":[{"awayFrom":"z","comment":"","expiryTime":1800000,"practiceRunOutcome":"FAILED","resourceIdentifier":"arn:arc:resource/0000000000000001","startTime":0,"status":"CANCELED","zonalShiftId":"00000000-0000-0000-0000-000000000001"}]}

== a run that was interrupted is cancelled
call 0 0 0 RegisterManagedResource {"name":"r","availabilityZones":["z"]}
call 0 0 0 CreatePracticeRunConfiguration {"resourceIdentifier":"arn:arc:resource/0000000000000001","outcomeAlarms":[{"alarmIdentifier":"o"}]}
call 0 0 0 StartPracticeRun {"resourceIdentifier":"arn:arc:resource/0000000000000001","awayFrom":"z","comment":""}
call 0 1 0 CancelPracticeRun {"zonalShiftId":"00000000-0000-0000-0000-000000000001"}
----
slot 0 token 1 200 {"resourceIdentifier":"arn:arc:resource/0000000000000001"}
slot 1 token 2 200 {}
slot 2 token 3 200 {"awayFrom":"z","comment":"","expiryTime":1800000,"practiceRunOutcome":"PENDING","resourceIdentifier":"arn:arc:resource/0000000000000001","startTime":0,"status":"ACTIVE","zonalShiftId":"00000000-0000-0000-0000-000000000001"}
slot 3 token 4 200 {"awayFrom":"z","comment":"","expiryTime":1800000,"practiceRunOutcome":"INTERRUPTED","resourceIdentifier":"arn:arc:resource/0000000000000001","startTime":0,"status":"CANCELED","zonalShiftId":"00000000-0000-0000-0000-000000000001"}

== the autoshift status of a resource
call 0 0 0 RegisterManagedResource {"name":"r","availabilityZones":["z"]}
call 0 0 0 UpdateZonalAutoshiftConfiguration {"resourceIdentifier":"arn:arc:resource/0000000000000001","zonalAutoshiftStatus":"DISABLED"}
----
slot 0 token 1 200 {"resourceIdentifier":"arn:arc:resource/0000000000000001"}
slot 1 token 2 200 {"resourceIdentifier":"arn:arc:resource/0000000000000001","zonalAutoshiftStatus":"DISABLED"}

== quotes and backslashes are escaped, slashes aren't
new 0 0 0 "\/
----
slot 0 token 1 200 {"RoutingControl":{"ControlPanelArn":"arn:arc:panel/0000000000000001","Name":"\"\\/","RoutingControlArn":"arn:arc:control/0000000000000001"}}

== controls of a text are escaped, those with a letter by it
new 0 0 0 	.
----
slot 0 token 1 200 {"RoutingControl":{"ControlPanelArn":"arn:arc:panel/0000000000000001","Name":"\u0001\t\b\f\r.\u001f","RoutingControlArn":"arn:arc:control/0000000000000001"}}

== a line feed is escaped by its letter
call 0 0 0 CreateRoutingControl {"RoutingControlName":"\u000a"}
----
slot 0 token 1 200 {"RoutingControl":{"ControlPanelArn":"arn:arc:panel/0000000000000001","Name":"\n","RoutingControlArn":"arn:arc:control/0000000000000001"}}

== the last of ASCII is a byte like any other
new 0 0 0 
----
slot 0 token 1 200 {"RoutingControl":{"ControlPanelArn":"arn:arc:panel/0000000000000001","Name":"","RoutingControlArn":"arn:arc:control/0000000000000001"}}

== letters beyond ASCII stand as they are
new 0 0 0 zürich-東京-🌍
----
slot 0 token 1 200 {"RoutingControl":{"ControlPanelArn":"arn:arc:panel/0000000000000001","Name":"zürich-東京-🌍","RoutingControlArn":"arn:arc:control/0000000000000001"}}

== the separators of lines and of paragraphs stand as they are
new 0 0 0   
----
slot 0 token 1 200 {"RoutingControl":{"ControlPanelArn":"arn:arc:panel/0000000000000001","Name":"  ","RoutingControlArn":"arn:arc:control/0000000000000001"}}

== escapes are written where a name is read back
new 0 0 0 say"go"
get 0 0 0 1
----
slot 0 token 1 200 {"RoutingControl":{"ControlPanelArn":"arn:arc:panel/0000000000000001","Name":"say\"go\"","RoutingControlArn":"arn:arc:control/0000000000000001"}}
slot 1 token 2 200 {"RoutingControlArn":"arn:arc:control/0000000000000001","RoutingControlName":"say\"go\"","RoutingControlState":"Off"}

== a comment, a zone and the name of a resource are escaped too
call 0 0 0 RegisterManagedResource {"name":"\t","availabilityZones":["\"z\\"]}
call 0 0 0 GetManagedResource {"resourceIdentifier":"arn:arc:resource/0000000000000001"}
call 0 0 0 StartZonalShift {"resourceIdentifier":"arn:arc:resource/0000000000000001","awayFrom":"\"z\\","expiresIn":"1m","comment":"a\nb \"c\""}
----
slot 0 token 1 200 {"resourceIdentifier":"arn:arc:resource/0000000000000001"}
slot 1 token 2 200 {"appliedShift":null,"availabilityZones":["\"z\\"],"name":"\t","resourceIdentifier":"arn:arc:resource/0000000000000001","zonalAutoshiftStatus":"DISABLED"}
slot 2 token 3 200 {"awayFrom":"\"z\\","comment":"a\nb \"c\"","expiryTime":60000,"resourceIdentifier":"arn:arc:resource/0000000000000001","startTime":0,"status":"ACTIVE","zonalShiftId":"00000000-0000-0000-0000-000000000001"}

== TokenAhead tells the place and the token
get 0 0 0 1
get 0 0 18446744073709551615 1
----
slot 0 token 1 404 {"Reason":"NotFound","Resource":"arn:arc:control/0000000000000001","__type":"ResourceNotFoundException"}
slot 1 token 2 409 {"Place":1,"Reason":"TokenAhead","Token":18446744073709551615,"__type":"ConflictException"}

== NotFound tells a panel
call 0 0 0 DeleteControlPanel {"ControlPanelArn":"arn:arc:panel/0000000000000002"}
----
slot 0 token 1 404 {"Reason":"NotFound","Resource":"arn:arc:panel/0000000000000002","__type":"ResourceNotFoundException"}

== NotFound tells a control
get 0 0 0 171
----
slot 0 token 1 404 {"Reason":"NotFound","Resource":"arn:arc:control/00000000000000ab","__type":"ResourceNotFoundException"}

== NotFound tells a rule
call 0 0 0 DeleteSafetyRule {"SafetyRuleArn":"arn:arc:rule/0000000000000001"}
----
slot 0 token 1 404 {"Reason":"NotFound","Resource":"arn:arc:rule/0000000000000001","__type":"ResourceNotFoundException"}

== NotFound tells a resource
call 0 0 0 GetManagedResource {"resourceIdentifier":"arn:arc:resource/0000000000000001"}
----
slot 0 token 1 404 {"Reason":"NotFound","Resource":"arn:arc:resource/0000000000000001","__type":"ResourceNotFoundException"}

== NotFound tells a shift
call 0 0 0 CancelZonalShift {"zonalShiftId":"00000000-0000-0000-0000-000000000001"}
----
slot 0 token 1 404 {"Reason":"NotFound","Resource":"00000000-0000-0000-0000-000000000001","__type":"ResourceNotFoundException"}

== NotFound tells a run
call 0 0 0 CancelPracticeRun {"zonalShiftId":"00000000-0000-0000-0000-000000000001"}
----
slot 0 token 1 404 {"Reason":"NotFound","Resource":"00000000-0000-0000-0000-000000000001","__type":"ResourceNotFoundException"}

== NotFound tells a zone
call 0 0 0 EndAutoshift {"awayFrom":"use1-az1"}
----
slot 0 token 1 404 {"Reason":"NotFound","Resource":"use1-az1","__type":"ResourceNotFoundException"}

== NotFound tells a zone with its escapes
call 0 0 0 EndAutoshift {"awayFrom":"\"\t"}
----
slot 0 token 1 404 {"Reason":"NotFound","Resource":"\"\t","__type":"ResourceNotFoundException"}

== NotConfigured tells the resource
call 0 0 0 RegisterManagedResource {"name":"r","availabilityZones":["z"]}
call 0 0 0 StartPracticeRun {"resourceIdentifier":"arn:arc:resource/0000000000000001","awayFrom":"z","comment":""}
----
slot 0 token 1 200 {"resourceIdentifier":"arn:arc:resource/0000000000000001"}
slot 1 token 2 404 {"Reason":"NotConfigured","Resource":"arn:arc:resource/0000000000000001","__type":"ResourceNotFoundException"}

== Limit tells how many there are
loop n 0 14
call 0 0 0 CreateControlPanel {"ControlPanelName":"p{n}"}
endloop
call 0 0 0 CreateControlPanel {"ControlPanelName":"p"}
----
loop n 0 14
slot {n} token {n+1} 200 {"ControlPanel":{"ControlPanelArn":"arn:arc:panel/{n+2:016x}","Name":"p{n}"}}
endloop
slot 15 token 16 402 {"Count":16,"Reason":"Limit","__type":"ServiceLimitExceededException"}

== NameTaken tells the panel that has the name
call 0 0 0 CreateControlPanel {"ControlPanelName":"a"}
call 0 0 0 CreateControlPanel {"ControlPanelName":"a"}
----
slot 0 token 1 200 {"ControlPanel":{"ControlPanelArn":"arn:arc:panel/0000000000000002","Name":"a"}}
slot 1 token 2 409 {"Reason":"NameTaken","Resource":"arn:arc:panel/0000000000000002","__type":"ConflictException"}

== NameTaken tells the control that has the name
new 0 0 0 a
new 0 0 0 a
----
slot 0 token 1 200 {"RoutingControl":{"ControlPanelArn":"arn:arc:panel/0000000000000001","Name":"a","RoutingControlArn":"arn:arc:control/0000000000000001"}}
slot 1 token 2 409 {"Reason":"NameTaken","Resource":"arn:arc:control/0000000000000001","__type":"ConflictException"}

== NameTaken tells the rule that has the name
new 0 0 0 a
assert 0 0 0 r AND 0 1
assert 0 0 0 r OR 0 1
----
slot 0 token 1 200 {"RoutingControl":{"ControlPanelArn":"arn:arc:panel/0000000000000001","Name":"a","RoutingControlArn":"arn:arc:control/0000000000000001"}}
slot 1 token 2 200 {"SafetyRuleArn":"arn:arc:rule/0000000000000001"}
slot 2 token 3 409 {"Reason":"NameTaken","Resource":"arn:arc:rule/0000000000000001","__type":"ConflictException"}

== NameTaken tells the resource that has the name
call 0 0 0 RegisterManagedResource {"name":"r","availabilityZones":["z"]}
call 0 0 0 RegisterManagedResource {"name":"r","availabilityZones":["z"]}
----
slot 0 token 1 200 {"resourceIdentifier":"arn:arc:resource/0000000000000001"}
slot 1 token 2 409 {"Reason":"NameTaken","Resource":"arn:arc:resource/0000000000000001","__type":"ConflictException"}

== InUse tells panel 1 of itself
call 0 0 0 DeleteControlPanel {"ControlPanelArn":"arn:arc:panel/0000000000000001"}
----
slot 0 token 1 409 {"Reason":"InUse","Resource":"arn:arc:panel/0000000000000001","__type":"ConflictException"}

== InUse tells the first control of a panel
call 0 0 0 CreateControlPanel {"ControlPanelName":"p"}
call 0 0 0 CreateRoutingControl {"RoutingControlName":"a","ControlPanelArn":"arn:arc:panel/0000000000000002"}
call 0 0 0 DeleteControlPanel {"ControlPanelArn":"arn:arc:panel/0000000000000002"}
----
slot 0 token 1 200 {"ControlPanel":{"ControlPanelArn":"arn:arc:panel/0000000000000002","Name":"p"}}
slot 1 token 2 200 {"RoutingControl":{"ControlPanelArn":"arn:arc:panel/0000000000000002","Name":"a","RoutingControlArn":"arn:arc:control/0000000000000001"}}
slot 2 token 3 409 {"Reason":"InUse","Resource":"arn:arc:control/0000000000000001","__type":"ConflictException"}

== InUse tells the first rule of a control
new 0 0 0 a
assert 0 0 0 r AND 0 1
call 0 0 0 DeleteRoutingControl {"RoutingControlArn":"arn:arc:control/0000000000000001"}
----
slot 0 token 1 200 {"RoutingControl":{"ControlPanelArn":"arn:arc:panel/0000000000000001","Name":"a","RoutingControlArn":"arn:arc:control/0000000000000001"}}
slot 1 token 2 200 {"SafetyRuleArn":"arn:arc:rule/0000000000000001"}
slot 2 token 3 409 {"Reason":"InUse","Resource":"arn:arc:rule/0000000000000001","__type":"ConflictException"}

== Configured tells the resource
call 0 0 0 RegisterManagedResource {"name":"r","availabilityZones":["z"]}
call 0 0 0 CreatePracticeRunConfiguration {"resourceIdentifier":"arn:arc:resource/0000000000000001","outcomeAlarms":[{"alarmIdentifier":"o"}]}
call 0 0 0 CreatePracticeRunConfiguration {"resourceIdentifier":"arn:arc:resource/0000000000000001","outcomeAlarms":[{"alarmIdentifier":"o"}]}
----
slot 0 token 1 200 {"resourceIdentifier":"arn:arc:resource/0000000000000001"}
slot 1 token 2 200 {}
slot 2 token 3 409 {"Reason":"Configured","Resource":"arn:arc:resource/0000000000000001","__type":"ConflictException"}

== Enabled tells the resource
call 0 0 0 RegisterManagedResource {"name":"r","availabilityZones":["z"]}
call 0 0 0 CreatePracticeRunConfiguration {"resourceIdentifier":"arn:arc:resource/0000000000000001","outcomeAlarms":[{"alarmIdentifier":"o"}]}
call 0 0 0 UpdateZonalAutoshiftConfiguration {"resourceIdentifier":"arn:arc:resource/0000000000000001","zonalAutoshiftStatus":"ENABLED"}
call 0 0 0 DeletePracticeRunConfiguration {"resourceIdentifier":"arn:arc:resource/0000000000000001"}
----
slot 0 token 1 200 {"resourceIdentifier":"arn:arc:resource/0000000000000001"}
slot 1 token 2 200 {}
slot 2 token 3 200 {"resourceIdentifier":"arn:arc:resource/0000000000000001","zonalAutoshiftStatus":"ENABLED"}
slot 3 token 4 409 {"Reason":"Enabled","Resource":"arn:arc:resource/0000000000000001","__type":"ConflictException"}

== Started tells the zone
call 0 0 0 StartAutoshift {"awayFrom":"use1-az1"}
call 0 0 0 StartAutoshift {"awayFrom":"use1-az1"}
----
slot 0 token 1 200 {}
slot 1 token 2 409 {"Reason":"Started","Resource":"use1-az1","__type":"ConflictException"}

== Forbidden tells each rule with its first cause, and until when one waits
new 0 0 0 a
new 0 0 0 b
assert 0 0 0 r OR 0 1
gate 0 0 0 g AND 0 2 1
gate 0 0 0 w !AND 60000 2 1
batch 0 2000 0 1=On 2
set 0 61999 0 1 Off
set 0 61999 0 2 On
set 0 61999 0 1 Off
----
slot 0 token 1 200 {"RoutingControl":{"ControlPanelArn":"arn:arc:panel/0000000000000001","Name":"a","RoutingControlArn":"arn:arc:control/0000000000000001"}}
slot 1 token 2 200 {"RoutingControl":{"ControlPanelArn":"arn:arc:panel/0000000000000001","Name":"b","RoutingControlArn":"arn:arc:control/0000000000000002"}}
slot 2 token 3 200 {"SafetyRuleArn":"arn:arc:rule/0000000000000001"}
slot 3 token 4 200 {"SafetyRuleArn":"arn:arc:rule/0000000000000002"}
slot 4 token 5 200 {"SafetyRuleArn":"arn:arc:rule/0000000000000003"}
slot 5 token 6 200 {}
slot 6 token 7 409 {"Reason":"Forbidden","Rules":[{"Cause":"AssertFalse","SafetyRuleArn":"arn:arc:rule/0000000000000001"},{"Cause":"GateClosed","SafetyRuleArn":"arn:arc:rule/0000000000000002"},{"Cause":"Waiting","SafetyRuleArn":"arn:arc:rule/0000000000000003","Until":62000}],"__type":"ConflictException"}
slot 7 token 8 200 {}
slot 8 token 9 409 {"Reason":"Forbidden","Rules":[{"Cause":"AssertFalse","SafetyRuleArn":"arn:arc:rule/0000000000000001"},{"Cause":"GateClosed","SafetyRuleArn":"arn:arc:rule/0000000000000003"}],"__type":"ConflictException"}

== Forbidden tells the rules in order of their making
new 0 0 0 a
loop n 1 10
assert 0 0 0 r{n} !OR 0 1
endloop
set 0 0 0 1 On
----
slot 0 token 1 200 {"RoutingControl":{"ControlPanelArn":"arn:arc:panel/0000000000000001","Name":"a","RoutingControlArn":"arn:arc:control/0000000000000001"}}
loop n 1 10
slot {n} token {n+1} 200 {"SafetyRuleArn":"arn:arc:rule/{n:016x}"}
endloop
slot 11 token 12 409 {"Reason":"Forbidden","Rules":[{"Cause":"AssertFalse","SafetyRuleArn":"arn:arc:rule/0000000000000001"},{"Cause":"AssertFalse","SafetyRuleArn":"arn:arc:rule/0000000000000002"},{"Cause":"AssertFalse","SafetyRuleArn":"arn:arc:rule/0000000000000003"},{"Cause":"AssertFalse","SafetyRuleArn":"arn:arc:rule/0000000000000004"},{"Cause":"AssertFalse","SafetyRuleArn":"arn:arc:rule/0000000000000005"},{"Cause":"AssertFalse","SafetyRuleArn":"arn:arc:rule/0000000000000006"},{"Cause":"AssertFalse","SafetyRuleArn":"arn:arc:rule/0000000000000007"},{"Cause":"AssertFalse","SafetyRuleArn":"arn:arc:rule/0000000000000008"},{"Cause":"AssertFalse","SafetyRuleArn":"arn:arc:rule/0000000000000009"},{"Cause":"AssertFalse","SafetyRuleArn":"arn:arc:rule/000000000000000a"}],"__type":"ConflictException"}

== NotActive tells that a shift has expired
call 0 0 0 RegisterManagedResource {"name":"r","availabilityZones":["z"]}
call 0 0 0 StartZonalShift {"resourceIdentifier":"arn:arc:resource/0000000000000001","awayFrom":"z","expiresIn":"1m","comment":""}
call 0 60000 0 CancelZonalShift {"zonalShiftId":"00000000-0000-0000-0000-000000000001"}
----
slot 0 token 1 200 {"resourceIdentifier":"arn:arc:resource/0000000000000001"}
slot 1 token 2 200 {"awayFrom":"z","comment":"","expiryTime":60000,"resourceIdentifier":"arn:arc:resource/0000000000000001","startTime":0,"status":"ACTIVE","zonalShiftId":"00000000-0000-0000-0000-000000000001"}
slot 2 token 3 409 {"Reason":"NotActive","Status":"EXPIRED","__type":"ConflictException"}

== NotActive tells that a shift was cancelled
call 0 0 0 RegisterManagedResource {"name":"r","availabilityZones":["z"]}
call 0 0 0 StartZonalShift {"resourceIdentifier":"arn:arc:resource/0000000000000001","awayFrom":"z","expiresIn":"1m","comment":""}
call 0 1 0 CancelZonalShift {"zonalShiftId":"00000000-0000-0000-0000-000000000001"}
call 0 60000 0 CancelZonalShift {"zonalShiftId":"00000000-0000-0000-0000-000000000001"}
----
slot 0 token 1 200 {"resourceIdentifier":"arn:arc:resource/0000000000000001"}
slot 1 token 2 200 {"awayFrom":"z","comment":"","expiryTime":60000,"resourceIdentifier":"arn:arc:resource/0000000000000001","startTime":0,"status":"ACTIVE","zonalShiftId":"00000000-0000-0000-0000-000000000001"}
slot 2 token 3 200 {"awayFrom":"z","comment":"","expiryTime":60000,"resourceIdentifier":"arn:arc:resource/0000000000000001","startTime":0,"status":"CANCELED","zonalShiftId":"00000000-0000-0000-0000-000000000001"}
slot 3 token 4 409 {"Reason":"NotActive","Status":"CANCELED","__type":"ConflictException"}

== Busy tells a shift of the customer
call 0 0 0 RegisterManagedResource {"name":"r","availabilityZones":["z"]}
call 0 0 0 StartZonalShift {"resourceIdentifier":"arn:arc:resource/0000000000000001","awayFrom":"z","expiresIn":"1m","comment":""}
call 0 0 0 StartZonalShift {"resourceIdentifier":"arn:arc:resource/0000000000000001","awayFrom":"z","expiresIn":"1m","comment":""}
----
slot 0 token 1 200 {"resourceIdentifier":"arn:arc:resource/0000000000000001"}
slot 1 token 2 200 {"awayFrom":"z","comment":"","expiryTime":60000,"resourceIdentifier":"arn:arc:resource/0000000000000001","startTime":0,"status":"ACTIVE","zonalShiftId":"00000000-0000-0000-0000-000000000001"}
slot 2 token 3 409 {"By":"CUSTOMER","Reason":"Busy","__type":"ConflictException"}

== Busy tells an autoshift
call 0 0 0 RegisterManagedResource {"name":"r","availabilityZones":["z"]}
call 0 0 0 CreatePracticeRunConfiguration {"resourceIdentifier":"arn:arc:resource/0000000000000001","outcomeAlarms":[{"alarmIdentifier":"o"}]}
call 0 0 0 UpdateZonalAutoshiftConfiguration {"resourceIdentifier":"arn:arc:resource/0000000000000001","zonalAutoshiftStatus":"ENABLED"}
call 0 0 0 StartAutoshift {"awayFrom":"z"}
call 0 0 0 StartPracticeRun {"resourceIdentifier":"arn:arc:resource/0000000000000001","awayFrom":"z","comment":""}
----
slot 0 token 1 200 {"resourceIdentifier":"arn:arc:resource/0000000000000001"}
slot 1 token 2 200 {}
slot 2 token 3 200 {"resourceIdentifier":"arn:arc:resource/0000000000000001","zonalAutoshiftStatus":"ENABLED"}
slot 3 token 4 200 {}
slot 4 token 5 409 {"By":"AUTOSHIFT","Reason":"Busy","__type":"ConflictException"}

== Busy tells a practice run
call 0 0 0 RegisterManagedResource {"name":"r","availabilityZones":["z"]}
call 0 0 0 CreatePracticeRunConfiguration {"resourceIdentifier":"arn:arc:resource/0000000000000001","outcomeAlarms":[{"alarmIdentifier":"o"}]}
call 0 0 0 StartPracticeRun {"resourceIdentifier":"arn:arc:resource/0000000000000001","awayFrom":"z","comment":""}
call 0 0 0 StartPracticeRun {"resourceIdentifier":"arn:arc:resource/0000000000000001","awayFrom":"z","comment":""}
----
slot 0 token 1 200 {"resourceIdentifier":"arn:arc:resource/0000000000000001"}
slot 1 token 2 200 {}
slot 2 token 3 200 {"awayFrom":"z","comment":"","expiryTime":1800000,"practiceRunOutcome":"PENDING","resourceIdentifier":"arn:arc:resource/0000000000000001","startTime":0,"status":"ACTIVE","zonalShiftId":"00000000-0000-0000-0000-000000000001"}
slot 3 token 4 409 {"By":"PRACTICE_RUN","Reason":"Busy","__type":"ConflictException"}

== WrongZone tells the zone that was asked for
call 0 0 0 RegisterManagedResource {"name":"r","availabilityZones":["z"]}
call 0 0 0 StartZonalShift {"resourceIdentifier":"arn:arc:resource/0000000000000001","awayFrom":"use1-az3","expiresIn":"1m","comment":""}
----
slot 0 token 1 200 {"resourceIdentifier":"arn:arc:resource/0000000000000001"}
slot 1 token 2 400 {"AwayFrom":"use1-az3","Reason":"WrongZone","__type":"ValidationException"}

== Blocked tells a date before a window, and both before alarms
call 0 0 0 RegisterManagedResource {"name":"r","availabilityZones":["z"]}
call 0 0 0 CreatePracticeRunConfiguration {"resourceIdentifier":"arn:arc:resource/0000000000000001","blockedDates":["1970-01-01"],"blockedWindows":["Thu:00:00-Fri:12:00"],"blockingAlarms":[{"alarmIdentifier":"b"}],"outcomeAlarms":[{"alarmIdentifier":"o"}]}
call 0 0 0 SetAlarmState {"alarmIdentifier":"b","state":"ALARM"}
call 0 0 0 SetAlarmState {"alarmIdentifier":"o","state":"ALARM"}
call 0 0 0 StartPracticeRun {"resourceIdentifier":"arn:arc:resource/0000000000000001","awayFrom":"z","comment":""}
call 0 86400000 0 StartPracticeRun {"resourceIdentifier":"arn:arc:resource/0000000000000001","awayFrom":"z","comment":""}
call 0 172800000 0 StartPracticeRun {"resourceIdentifier":"arn:arc:resource/0000000000000001","awayFrom":"z","comment":""}
call 0 172800000 0 SetAlarmState {"alarmIdentifier":"b","state":"OK"}
call 0 172800000 0 StartPracticeRun {"resourceIdentifier":"arn:arc:resource/0000000000000001","awayFrom":"z","comment":""}
----
slot 0 token 1 200 {"resourceIdentifier":"arn:arc:resource/0000000000000001"}
slot 1 token 2 200 {}
slot 2 token 3 200 {}
slot 3 token 4 200 {}
slot 4 token 5 409 {"Cause":"BlockedDate","Reason":"Blocked","__type":"ConflictException"}
slot 5 token 6 409 {"Cause":"BlockedWindow","Reason":"Blocked","__type":"ConflictException"}
slot 6 token 7 409 {"Cause":"BlockingAlarm","Reason":"Blocked","__type":"ConflictException"}
slot 7 token 8 200 {}
slot 8 token 9 409 {"Cause":"OutcomeAlarm","Reason":"Blocked","__type":"ConflictException"}

== a run is no shift of the customer, and a shift no run
call 0 0 0 RegisterManagedResource {"name":"r","availabilityZones":["z"]}
call 0 0 0 CreatePracticeRunConfiguration {"resourceIdentifier":"arn:arc:resource/0000000000000001","outcomeAlarms":[{"alarmIdentifier":"o"}]}
call 0 0 0 StartPracticeRun {"resourceIdentifier":"arn:arc:resource/0000000000000001","awayFrom":"z","comment":""}
call 0 0 0 CancelZonalShift {"zonalShiftId":"00000000-0000-0000-0000-000000000001"}
call 0 0 0 UpdateZonalShift {"zonalShiftId":"00000000-0000-0000-0000-000000000001"}
call 0 0 0 StartZonalShift {"resourceIdentifier":"arn:arc:resource/0000000000000001","awayFrom":"z","expiresIn":"1m","comment":""}
call 0 0 0 CancelPracticeRun {"zonalShiftId":"00000000-0000-0000-0000-000000000002"}
----
slot 0 token 1 200 {"resourceIdentifier":"arn:arc:resource/0000000000000001"}
slot 1 token 2 200 {}
slot 2 token 3 200 {"awayFrom":"z","comment":"","expiryTime":1800000,"practiceRunOutcome":"PENDING","resourceIdentifier":"arn:arc:resource/0000000000000001","startTime":0,"status":"ACTIVE","zonalShiftId":"00000000-0000-0000-0000-000000000001"}
slot 3 token 4 404 {"Reason":"NotFound","Resource":"00000000-0000-0000-0000-000000000001","__type":"ResourceNotFoundException"}
slot 4 token 5 404 {"Reason":"NotFound","Resource":"00000000-0000-0000-0000-000000000001","__type":"ResourceNotFoundException"}
slot 5 token 6 200 {"awayFrom":"z","comment":"","expiryTime":60000,"resourceIdentifier":"arn:arc:resource/0000000000000001","startTime":0,"status":"ACTIVE","zonalShiftId":"00000000-0000-0000-0000-000000000002"}
slot 6 token 7 404 {"Reason":"NotFound","Resource":"00000000-0000-0000-0000-000000000002","__type":"ResourceNotFoundException"}

== NotActive tells that a run is over
call 0 0 0 RegisterManagedResource {"name":"r","availabilityZones":["z"]}
call 0 0 0 CreatePracticeRunConfiguration {"resourceIdentifier":"arn:arc:resource/0000000000000001","outcomeAlarms":[{"alarmIdentifier":"o"}]}
call 0 0 0 StartPracticeRun {"resourceIdentifier":"arn:arc:resource/0000000000000001","awayFrom":"z","comment":""}
call 0 1800000 0 CancelPracticeRun {"zonalShiftId":"00000000-0000-0000-0000-000000000001"}
----
slot 0 token 1 200 {"resourceIdentifier":"arn:arc:resource/0000000000000001"}
slot 1 token 2 200 {}
slot 2 token 3 200 {"awayFrom":"z","comment":"","expiryTime":1800000,"practiceRunOutcome":"PENDING","resourceIdentifier":"arn:arc:resource/0000000000000001","startTime":0,"status":"ACTIVE","zonalShiftId":"00000000-0000-0000-0000-000000000001"}
slot 3 token 4 409 {"Reason":"NotActive","Status":"EXPIRED","__type":"ConflictException"}

== NotActive tells that a run was cancelled
call 0 0 0 RegisterManagedResource {"name":"r","availabilityZones":["z"]}
call 0 0 0 CreatePracticeRunConfiguration {"resourceIdentifier":"arn:arc:resource/0000000000000001","outcomeAlarms":[{"alarmIdentifier":"o"}]}
call 0 0 0 StartPracticeRun {"resourceIdentifier":"arn:arc:resource/0000000000000001","awayFrom":"z","comment":""}
call 0 1 0 CancelPracticeRun {"zonalShiftId":"00000000-0000-0000-0000-000000000001"}
call 0 2 0 CancelPracticeRun {"zonalShiftId":"00000000-0000-0000-0000-000000000001"}
----
slot 0 token 1 200 {"resourceIdentifier":"arn:arc:resource/0000000000000001"}
slot 1 token 2 200 {}
slot 2 token 3 200 {"awayFrom":"z","comment":"","expiryTime":1800000,"practiceRunOutcome":"PENDING","resourceIdentifier":"arn:arc:resource/0000000000000001","startTime":0,"status":"ACTIVE","zonalShiftId":"00000000-0000-0000-0000-000000000001"}
slot 3 token 4 200 {"awayFrom":"z","comment":"","expiryTime":1800000,"practiceRunOutcome":"INTERRUPTED","resourceIdentifier":"arn:arc:resource/0000000000000001","startTime":0,"status":"CANCELED","zonalShiftId":"00000000-0000-0000-0000-000000000001"}
slot 4 token 5 409 {"Reason":"NotActive","Status":"CANCELED","__type":"ConflictException"}
