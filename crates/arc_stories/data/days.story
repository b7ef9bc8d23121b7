# Whole days: several operations one after another, as an operator would call them.

== a gate opens, traffic moves, and a change comes a millisecond too early
new 0 1000 0 cell-a
new 0 1000 0 cell-b
new 0 1000 0 gate
call 0 1000 0 CreateControlPanel {"ControlPanelName":"ops"}
call 0 1000 0 CreateRoutingControl {"RoutingControlName":"x","ControlPanelArn":"arn:arc:panel/0000000000000002"}
call 0 1000 0 CreateRoutingControl {"RoutingControlName":"y","ControlPanelArn":"arn:arc:panel/0000000000000002"}
call 0 1000 0 CreateRoutingControl {"RoutingControlName":"z","ControlPanelArn":"arn:arc:panel/0000000000000002"}
assert 0 1000 0 one-on ATLEAST:1 0 1,2
gate 0 1000 0 guarded AND 60000 3 1,2
batch 0 1000 0 3=On -
batch 0 2000 0 1=On -
batch 0 62000 0 1=Off,2=On -
batch 0 121999 0 1=On,2=Off -
batch 0 122000 0 1=On,2=Off -
----
slot 0 token 1 200 {"RoutingControl":{"ControlPanelArn":"arn:arc:panel/0000000000000001","Name":"cell-a","RoutingControlArn":"arn:arc:control/0000000000000001"}}
slot 1 token 2 200 {"RoutingControl":{"ControlPanelArn":"arn:arc:panel/0000000000000001","Name":"cell-b","RoutingControlArn":"arn:arc:control/0000000000000002"}}
slot 2 token 3 200 {"RoutingControl":{"ControlPanelArn":"arn:arc:panel/0000000000000001","Name":"gate","RoutingControlArn":"arn:arc:control/0000000000000003"}}
slot 3 token 4 200 {"ControlPanel":{"ControlPanelArn":"arn:arc:panel/0000000000000002","Name":"ops"}}
slot 4 token 5 200 {"RoutingControl":{"ControlPanelArn":"arn:arc:panel/0000000000000002","Name":"x","RoutingControlArn":"arn:arc:control/0000000000000004"}}
slot 5 token 6 200 {"RoutingControl":{"ControlPanelArn":"arn:arc:panel/0000000000000002","Name":"y","RoutingControlArn":"arn:arc:control/0000000000000005"}}
slot 6 token 7 200 {"RoutingControl":{"ControlPanelArn":"arn:arc:panel/0000000000000002","Name":"z","RoutingControlArn":"arn:arc:control/0000000000000006"}}
slot 7 token 8 200 {"SafetyRuleArn":"arn:arc:rule/0000000000000001"}
slot 8 token 9 200 {"SafetyRuleArn":"arn:arc:rule/0000000000000002"}
slot 9 token 10 200 {}
slot 10 token 11 200 {}
slot 11 token 12 200 {}
slot 12 token 13 409 {"Reason":"Forbidden","Rules":[{"Cause":"Waiting","SafetyRuleArn":"arn:arc:rule/0000000000000002","Until":122000}],"__type":"ConflictException"}
slot 13 token 14 200 {}

== a failover is guarded by an assertion and a gate, and overridden when it has to be now
new 0 0 0 cell-a
new 0 0 0 cell-b
new 0 0 0 permission
set 0 1000 0 1 On
assert 0 1000 0 one-cell-on ATLEAST:1 0 1,2
gate 0 1000 0 with-permission AND 60000 3 1,2
set 0 10000 0 1 Off
batch 0 11000 0 1=Off,2=On -
batch 0 12000 0 1=Off,2=On,3=On -
set 0 13000 0 3 On
batch 0 14000 0 1=Off,2=On -
batch 0 20000 0 1=On,2=Off -
batch 0 21000 0 1=On,2=Off 2
batch 0 22000 0 1=Off 2
get 0 23000 13 1
----
slot 0 token 1 200 {"RoutingControl":{"ControlPanelArn":"arn:arc:panel/0000000000000001","Name":"cell-a","RoutingControlArn":"arn:arc:control/0000000000000001"}}
slot 1 token 2 200 {"RoutingControl":{"ControlPanelArn":"arn:arc:panel/0000000000000001","Name":"cell-b","RoutingControlArn":"arn:arc:control/0000000000000002"}}
slot 2 token 3 200 {"RoutingControl":{"ControlPanelArn":"arn:arc:panel/0000000000000001","Name":"permission","RoutingControlArn":"arn:arc:control/0000000000000003"}}
slot 3 token 4 200 {}
slot 4 token 5 200 {"SafetyRuleArn":"arn:arc:rule/0000000000000001"}
slot 5 token 6 200 {"SafetyRuleArn":"arn:arc:rule/0000000000000002"}
slot 6 token 7 409 {"Reason":"Forbidden","Rules":[{"Cause":"AssertFalse","SafetyRuleArn":"arn:arc:rule/0000000000000001"},{"Cause":"GateClosed","SafetyRuleArn":"arn:arc:rule/0000000000000002"}],"__type":"ConflictException"}
slot 7 token 8 409 {"Reason":"Forbidden","Rules":[{"Cause":"GateClosed","SafetyRuleArn":"arn:arc:rule/0000000000000002"}],"__type":"ConflictException"}
slot 8 token 9 409 {"Reason":"Forbidden","Rules":[{"Cause":"GateClosed","SafetyRuleArn":"arn:arc:rule/0000000000000002"}],"__type":"ConflictException"}
slot 9 token 10 200 {}
slot 10 token 11 200 {}
slot 11 token 12 409 {"Reason":"Forbidden","Rules":[{"Cause":"Waiting","SafetyRuleArn":"arn:arc:rule/0000000000000002","Until":74000}],"__type":"ConflictException"}
slot 12 token 13 200 {}
slot 13 token 14 409 {"Reason":"Forbidden","Rules":[{"Cause":"AssertFalse","SafetyRuleArn":"arn:arc:rule/0000000000000001"}],"__type":"ConflictException"}
slot 14 token 15 200 {"RoutingControlArn":"arn:arc:control/0000000000000001","RoutingControlName":"cell-a","RoutingControlState":"On"}

== an operator's evening: a failover, a zonal shift and a practice run, by whole operations
call 0 0 0 CreateControlPanel {"ControlPanelName":"shop"}
call 0 0 0 CreateRoutingControl {"RoutingControlName":"cell-a","ControlPanelArn":"arn:arc:panel/0000000000000002"}
call 0 0 0 CreateRoutingControl {"RoutingControlName":"cell-b","ControlPanelArn":"arn:arc:panel/0000000000000002"}
call 0 0 0 CreateSafetyRule {"AssertionRule":{"Name":"one-on","ControlPanelArn":"arn:arc:panel/0000000000000002","AssertedControls":["arn:arc:control/0000000000000001","arn:arc:control/0000000000000002"],"RuleConfig":{"Type":"ATLEAST","Threshold":1},"WaitPeriodMs":0}}
call 0 68400000 0 UpdateRoutingControlState {"RoutingControlArn":"arn:arc:control/0000000000000001","RoutingControlState":"On"}
call 0 68401000 0 UpdateRoutingControlState {"RoutingControlArn":"arn:arc:control/0000000000000001","RoutingControlState":"Off"}
call 0 68402000 0 UpdateRoutingControlStates {"UpdateRoutingControlStateEntries":[{"RoutingControlArn":"arn:arc:control/0000000000000001","RoutingControlState":"Off"},{"RoutingControlArn":"arn:arc:control/0000000000000002","RoutingControlState":"On"}]}
call 0 68403000 7 ListRoutingControls {"ControlPanelArn":"arn:arc:panel/0000000000000002"}
call 0 72000000 0 RegisterManagedResource {"name":"lb","availabilityZones":["use1-az1","use1-az2"]}
call 0 72000000 0 StartZonalShift {"resourceIdentifier":"arn:arc:resource/0000000000000001","awayFrom":"use1-az1","expiresIn":"30m","comment":"az1 drops packets"}
call 0 72060000 0 GetManagedResource {"resourceIdentifier":"arn:arc:resource/0000000000000001"}
call 0 72600000 0 CancelZonalShift {"zonalShiftId":"00000000-0000-0000-0000-000000000001"}
call 0 75600000 0 CreatePracticeRunConfiguration {"resourceIdentifier":"arn:arc:resource/0000000000000001","blockedWindows":["Sun:23:30-Mon:00:30"],"outcomeAlarms":[{"alarmIdentifier":"errors"}]}
call 0 75600000 0 StartPracticeRun {"resourceIdentifier":"arn:arc:resource/0000000000000001","awayFrom":"use1-az2","comment":"practice"}
call 0 76000000 0 SetAlarmState {"alarmIdentifier":"errors","state":"ALARM"}
call 0 76001000 0 ListZonalShifts {}
----
slot 0 token 1 200 {"ControlPanel":{"ControlPanelArn":"arn:arc:panel/0000000000000002","Name":"shop"}}
slot 1 token 2 200 {"RoutingControl":{"ControlPanelArn":"arn:arc:panel/0000000000000002","Name":"cell-a","RoutingControlArn":"arn:arc:control/0000000000000001"}}
slot 2 token 3 200 {"RoutingControl":{"ControlPanelArn":"arn:arc:panel/0000000000000002","Name":"cell-b","RoutingControlArn":"arn:arc:control/0000000000000002"}}
slot 3 token 4 200 {"SafetyRuleArn":"arn:arc:rule/0000000000000001"}
slot 4 token 5 200 {}
slot 5 token 6 409 {"Reason":"Forbidden","Rules":[{"Cause":"AssertFalse","SafetyRuleArn":"arn:arc:rule/0000000000000001"}],"__type":"ConflictException"}
slot 6 token 7 200 {}
slot 7 token 8 200 {"RoutingControls":[{"ControlPanelArn":"arn:arc:panel/0000000000000002","RoutingControlArn":"arn:arc:control/0000000000000001","RoutingControlName":"cell-a","RoutingControlState":"Off"},{"ControlPanelArn":"arn:arc:panel/0000000000000002","RoutingControlArn":"arn:arc:control/0000000000000002","RoutingControlName":"cell-b","RoutingControlState":"On"}]}
slot 8 token 9 200 {"resourceIdentifier":"arn:arc:resource/0000000000000001"}
slot 9 token 10 200 {"awayFrom":"use1-az1","comment":"az1 drops packets","expiryTime":73800000,"resourceIdentifier":"arn:arc:resource/0000000000000001","startTime":72000000,"status":"ACTIVE","zonalShiftId":"00000000-0000-0000-0000-000000000001"}
slot 10 token 11 200 {"appliedShift":{"awayFrom":"use1-az1","kind":"CUSTOMER"},"availabilityZones":["use1-az1","use1-az2"],"name":"lb","resourceIdentifier":"arn:arc:resource/0000000000000001","zonalAutoshiftStatus":"DISABLED"}
slot 11 token 12 200 {"awayFrom":"use1-az1","comment":"az1 drops packets","expiryTime":73800000,"resourceIdentifier":"arn:arc:resource/0000000000000001","startTime":72000000,"status":"CANCELED","zonalShiftId":"00000000-0000-0000-0000-000000000001"}
slot 12 token 13 200 {}
slot 13 token 14 200 {"awayFrom":"use1-az2","comment":"practice","expiryTime":77400000,"practiceRunOutcome":"PENDING","resourceIdentifier":"arn:arc:resource/0000000000000001","startTime":75600000,"status":"ACTIVE","zonalShiftId":"00000000-0000-0000-0000-000000000002"}
slot 14 token 15 200 {}
slot 15 token 16 200 {"items":[{"awayFrom":"use1-az1","comment":"az1 drops packets","expiryTime":73800000,"resourceIdentifier":"arn:arc:resource/0000000000000001","startTime":72000000,"status":"CANCELED","zonalShiftId":"00000000-0000-0000-0000-000000000001"},{"awayFrom":"use1-az2","comment":"practice","expiryTime":77400000,"practiceRunOutcome":"FAILED","resourceIdentifier":"arn:arc:resource/0000000000000001","startTime":75600000,"status":"CANCELED","zonalShiftId":"00000000-0000-0000-0000-000000000002"}]}

== every operation once, and what is on the disk is read again
call 0 0 0 CreateControlPanel {"ControlPanelName":"ops"}
call 0 0 0 CreateRoutingControl {"RoutingControlName":"a","ControlPanelArn":"arn:arc:panel/0000000000000002"}
call 0 0 0 UpdateRoutingControlState {"RoutingControlArn":"arn:arc:control/0000000000000001","RoutingControlState":"On"}
call 0 0 0 UpdateRoutingControlStates {"UpdateRoutingControlStateEntries":[{"RoutingControlArn":"arn:arc:control/0000000000000001","RoutingControlState":"On"}]}
call 0 0 0 GetRoutingControlState {"RoutingControlArn":"arn:arc:control/0000000000000001"}
call 0 0 0 ListRoutingControls
call 0 0 0 CreateSafetyRule {"AssertionRule":{"Name":"r","ControlPanelArn":"arn:arc:panel/0000000000000002","AssertedControls":["arn:arc:control/0000000000000001"],"RuleConfig":{"Type":"AND"},"WaitPeriodMs":0}}
call 0 0 0 UpdateSafetyRule {"AssertionRuleUpdate":{"SafetyRuleArn":"arn:arc:rule/0000000000000001","Name":"s","WaitPeriodMs":5}}
call 0 0 0 ListSafetyRules {"ControlPanelArn":"arn:arc:panel/0000000000000002"}
call 0 0 0 DeleteRoutingControl {"RoutingControlArn":"arn:arc:control/0000000000000001"}
call 0 0 0 DeleteSafetyRule {"SafetyRuleArn":"arn:arc:rule/0000000000000001"}
call 0 0 0 DeleteRoutingControl {"RoutingControlArn":"arn:arc:control/0000000000000001"}
call 0 0 0 DeleteControlPanel {"ControlPanelArn":"arn:arc:panel/0000000000000002"}
call 0 0 0 RegisterManagedResource {"name":"lb","availabilityZones":["use1-az1","use1-az2"]}
call 0 0 0 ListManagedResources
call 0 0 0 StartZonalShift {"resourceIdentifier":"arn:arc:resource/0000000000000001","awayFrom":"use1-az1","expiresIn":"1h","comment":"x"}
call 0 0 0 UpdateZonalShift {"zonalShiftId":"00000000-0000-0000-0000-000000000001","comment":"y"}
call 0 0 0 CancelZonalShift {"zonalShiftId":"00000000-0000-0000-0000-000000000001"}
call 0 0 0 CreatePracticeRunConfiguration {"resourceIdentifier":"arn:arc:resource/0000000000000001","outcomeAlarms":[{"alarmIdentifier":"errors"}]}
call 0 0 0 UpdatePracticeRunConfiguration {"resourceIdentifier":"arn:arc:resource/0000000000000001","outcomeAlarms":[{"alarmIdentifier":"slow"}]}
call 0 0 0 StartPracticeRun {"resourceIdentifier":"arn:arc:resource/0000000000000001","awayFrom":"use1-az1","comment":""}
call 0 0 0 CancelPracticeRun {"zonalShiftId":"00000000-0000-0000-0000-000000000002"}
call 0 0 0 SetAlarmState {"alarmIdentifier":"slow","state":"ALARM"}
call 0 0 0 UpdateZonalAutoshiftConfiguration {"resourceIdentifier":"arn:arc:resource/0000000000000001","zonalAutoshiftStatus":"ENABLED"}
call 0 0 0 StartAutoshift {"awayFrom":"use1-az2"}
call 0 0 0 GetManagedResource {"resourceIdentifier":"arn:arc:resource/0000000000000001"}
call 0 0 0 EndAutoshift {"awayFrom":"use1-az2"}
call 0 0 0 DeletePracticeRunConfiguration {"resourceIdentifier":"arn:arc:resource/0000000000000001"}
call 0 0 0 UpdateZonalAutoshiftConfiguration {"resourceIdentifier":"arn:arc:resource/0000000000000001","zonalAutoshiftStatus":"DISABLED"}
call 0 0 0 DeletePracticeRunConfiguration {"resourceIdentifier":"arn:arc:resource/0000000000000001"}
call 0 0 0 ListZonalShifts
restart 0
----
slot 0 token 1 200 {"ControlPanel":{"ControlPanelArn":"arn:arc:panel/0000000000000002","Name":"ops"}}
slot 1 token 2 200 {"RoutingControl":{"ControlPanelArn":"arn:arc:panel/0000000000000002","Name":"a","RoutingControlArn":"arn:arc:control/0000000000000001"}}
slot 2 token 3 200 {}
slot 3 token 4 200 {}
slot 4 token 5 200 {"RoutingControlArn":"arn:arc:control/0000000000000001","RoutingControlName":"a","RoutingControlState":"On"}
slot 5 token 6 200 {"RoutingControls":[{"ControlPanelArn":"arn:arc:panel/0000000000000002","RoutingControlArn":"arn:arc:control/0000000000000001","RoutingControlName":"a","RoutingControlState":"On"}]}
slot 6 token 7 200 {"SafetyRuleArn":"arn:arc:rule/0000000000000001"}
slot 7 token 8 200 {}
slot 8 token 9 200 {"SafetyRules":[{"Name":"s","SafetyRuleArn":"arn:arc:rule/0000000000000001","Type":"ASSERTION","WaitPeriodMs":5}]}
slot 9 token 10 409 {"Reason":"InUse","Resource":"arn:arc:rule/0000000000000001","__type":"ConflictException"}
slot 10 token 11 200 {}
slot 11 token 12 200 {}
slot 12 token 13 200 {}
slot 13 token 14 200 {"resourceIdentifier":"arn:arc:resource/0000000000000001"}
slot 14 token 15 200 {"items":[{"name":"lb","resourceIdentifier":"arn:arc:resource/0000000000000001"}]}
slot 15 token 16 200 {"awayFrom":"use1-az1","comment":"x","expiryTime":3600000,"resourceIdentifier":"arn:arc:resource/0000000000000001","startTime":0,"status":"ACTIVE","zonalShiftId":"00000000-0000-0000-0000-000000000001"}
slot 16 token 17 200 {"awayFrom":"use1-az1","comment":"y","expiryTime":3600000,"resourceIdentifier":"arn:arc:resource/0000000000000001","startTime":0,"status":"ACTIVE","zonalShiftId":"00000000-0000-0000-0000-000000000001"}
slot 17 token 18 200 {"awayFrom":"use1-az1","comment":"y","expiryTime":3600000,"resourceIdentifier":"arn:arc:resource/0000000000000001","startTime":0,"status":"CANCELED","zonalShiftId":"00000000-0000-0000-0000-000000000001"}
slot 18 token 19 200 {}
slot 19 token 20 200 {}
slot 20 token 21 200 {"awayFrom":"use1-az1","comment":"","expiryTime":1800000,"practiceRunOutcome":"PENDING","resourceIdentifier":"arn:arc:resource/0000000000000001","startTime":0,"status":"ACTIVE","zonalShiftId":"00000000-0000-0000-0000-000000000002"}
slot 21 token 22 200 {"awayFrom":"use1-az1","comment":"","expiryTime":1800000,"practiceRunOutcome":"INTERRUPTED","resourceIdentifier":"arn:arc:resource/0000000000000001","startTime":0,"status":"CANCELED","zonalShiftId":"00000000-0000-0000-0000-000000000002"}
slot 22 token 23 200 {}
slot 23 token 24 200 {"resourceIdentifier":"arn:arc:resource/0000000000000001","zonalAutoshiftStatus":"ENABLED"}
slot 24 token 25 200 {}
slot 25 token 26 200 {"appliedShift":{"awayFrom":"use1-az2","kind":"AUTOSHIFT"},"availabilityZones":["use1-az1","use1-az2"],"name":"lb","resourceIdentifier":"arn:arc:resource/0000000000000001","zonalAutoshiftStatus":"ENABLED"}
slot 26 token 27 200 {}
slot 27 token 28 409 {"Reason":"Enabled","Resource":"arn:arc:resource/0000000000000001","__type":"ConflictException"}
slot 28 token 29 200 {"resourceIdentifier":"arn:arc:resource/0000000000000001","zonalAutoshiftStatus":"DISABLED"}
slot 29 token 30 200 {}
slot 30 token 31 200 {"items":[{"awayFrom":"use1-az1","comment":"y","expiryTime":3600000,"resourceIdentifier":"arn:arc:resource/0000000000000001","startTime":0,"status":"CANCELED","zonalShiftId":"00000000-0000-0000-0000-000000000001"},{"awayFrom":"use1-az1","comment":"","expiryTime":1800000,"practiceRunOutcome":"INTERRUPTED","resourceIdentifier":"arn:arc:resource/0000000000000001","startTime":0,"status":"CANCELED","zonalShiftId":"00000000-0000-0000-0000-000000000002"}]}
restart 0 up 2

== a day of all operations: traffic moves, an evening of controls, a night of shifts
new 0 1000 0 cell-a
new 0 1000 0 cell-b
new 0 1000 0 gate
call 0 1000 0 CreateControlPanel {"ControlPanelName":"ops"}
call 0 1000 0 CreateRoutingControl {"RoutingControlName":"x","ControlPanelArn":"arn:arc:panel/0000000000000002"}
call 0 1000 0 CreateRoutingControl {"RoutingControlName":"y","ControlPanelArn":"arn:arc:panel/0000000000000002"}
call 0 1000 0 CreateRoutingControl {"RoutingControlName":"z","ControlPanelArn":"arn:arc:panel/0000000000000002"}
assert 0 1000 0 one-on ATLEAST:1 0 1,2
gate 0 1000 0 guarded AND 60000 3 1,2
batch 0 1000 0 3=On -
batch 0 2000 0 1=On -
batch 0 62000 0 1=Off,2=On -
batch 0 121999 0 1=On,2=Off -
batch 0 122000 0 1=On,2=Off -
# What was made is looked at, changed and removed.
get 0 123000 14 1
call 0 123000 0 CreateRoutingControl {"RoutingControlName":"x","ControlPanelArn":"arn:arc:panel/0000000000000002"}
call 0 123000 0 UpdateRoutingControlState {"RoutingControlArn":"arn:arc:control/0000000000000003","RoutingControlState":"Off"}
call 0 123000 0 UpdateSafetyRule {"GatingRuleUpdate":{"SafetyRuleArn":"arn:arc:rule/0000000000000002","Name":"guard","WaitPeriodMs":1000}}
call 0 123000 0 UpdateSafetyRule {"GatingRuleUpdate":{"SafetyRuleArn":"arn:arc:rule/0000000000000001","Name":"one","WaitPeriodMs":0}}
call 0 123000 0 ListSafetyRules {"ControlPanelArn":"arn:arc:panel/0000000000000001"}
call 0 123000 0 DeleteRoutingControl {"RoutingControlArn":"arn:arc:control/0000000000000003"}
call 0 123000 0 DeleteSafetyRule {"SafetyRuleArn":"arn:arc:rule/0000000000000002"}
call 0 123000 0 DeleteRoutingControl {"RoutingControlArn":"arn:arc:control/0000000000000003"}
call 0 123000 0 DeleteRoutingControl {"RoutingControlArn":"arn:arc:control/0000000000000004"}
call 0 123000 0 DeleteControlPanel {"ControlPanelArn":"arn:arc:panel/0000000000000002"}
call 0 123000 0 DeleteRoutingControl {"RoutingControlArn":"arn:arc:control/0000000000000005"}
call 0 123000 0 DeleteRoutingControl {"RoutingControlArn":"arn:arc:control/0000000000000006"}
call 0 123000 0 DeleteControlPanel {"ControlPanelArn":"arn:arc:panel/0000000000000002"}
call 0 123000 0 ListRoutingControls
# A resource, a shift, a run that is cancelled, an autoshift, and nothing is left configured.
call 0 200000 0 RegisterManagedResource {"name":"lb","availabilityZones":["use1-az1","use1-az2"]}
call 0 200000 0 RegisterManagedResource {"name":"lb","availabilityZones":["use1-az1","use1-az2"]}
call 0 200000 0 ListManagedResources
call 0 200000 0 StartZonalShift {"resourceIdentifier":"arn:arc:resource/0000000000000001","awayFrom":"use1-az1","expiresIn":"30m","comment":"x"}
call 0 300000 0 UpdateZonalShift {"zonalShiftId":"00000000-0000-0000-0000-000000000001","expiresIn":"60m"}
call 0 400000 0 CancelZonalShift {"zonalShiftId":"00000000-0000-0000-0000-000000000001"}
call 0 400000 0 CreatePracticeRunConfiguration {"resourceIdentifier":"arn:arc:resource/0000000000000001","blockedWindows":["Sun:23:30-Mon:00:30"],"outcomeAlarms":[{"alarmIdentifier":"alarm-1"}]}
call 0 400000 0 UpdatePracticeRunConfiguration {"resourceIdentifier":"arn:arc:resource/0000000000000001","blockedWindows":[]}
call 0 400000 0 StartPracticeRun {"resourceIdentifier":"arn:arc:resource/0000000000000001","awayFrom":"use1-az1","comment":""}
call 0 500000 0 CancelPracticeRun {"zonalShiftId":"00000000-0000-0000-0000-000000000002"}
call 0 500000 0 UpdateZonalAutoshiftConfiguration {"resourceIdentifier":"arn:arc:resource/0000000000000001","zonalAutoshiftStatus":"ENABLED"}
call 0 500000 0 StartAutoshift {"awayFrom":"use1-az2"}
call 0 500000 0 GetManagedResource {"resourceIdentifier":"arn:arc:resource/0000000000000001"}
call 0 500000 0 EndAutoshift {"awayFrom":"use1-az2"}
call 0 500000 0 SetAlarmState {"alarmIdentifier":"alarm-1","state":"ALARM"}
call 0 500000 0 UpdateZonalAutoshiftConfiguration {"resourceIdentifier":"arn:arc:resource/0000000000000001","zonalAutoshiftStatus":"DISABLED"}
call 0 500000 0 DeletePracticeRunConfiguration {"resourceIdentifier":"arn:arc:resource/0000000000000001"}
call 0 500000 0 ListZonalShifts
----
slot 0 token 1 200 {"RoutingControl":{"ControlPanelArn":"arn:arc:panel/0000000000000001","Name":"cell-a","RoutingControlArn":"arn:arc:control/0000000000000001"}}
slot 1 token 2 200 {"RoutingControl":{"ControlPanelArn":"arn:arc:panel/0000000000000001","Name":"cell-b","RoutingControlArn":"arn:arc:control/0000000000000002"}}
slot 2 token 3 200 {"RoutingControl":{"ControlPanelArn":"arn:arc:panel/0000000000000001","Name":"gate","RoutingControlArn":"arn:arc:control/0000000000000003"}}
slot 3 token 4 200 {"ControlPanel":{"ControlPanelArn":"arn:arc:panel/0000000000000002","Name":"ops"}}
slot 4 token 5 200 {"RoutingControl":{"ControlPanelArn":"arn:arc:panel/0000000000000002","Name":"x","RoutingControlArn":"arn:arc:control/0000000000000004"}}
slot 5 token 6 200 {"RoutingControl":{"ControlPanelArn":"arn:arc:panel/0000000000000002","Name":"y","RoutingControlArn":"arn:arc:control/0000000000000005"}}
slot 6 token 7 200 {"RoutingControl":{"ControlPanelArn":"arn:arc:panel/0000000000000002","Name":"z","RoutingControlArn":"arn:arc:control/0000000000000006"}}
slot 7 token 8 200 {"SafetyRuleArn":"arn:arc:rule/0000000000000001"}
slot 8 token 9 200 {"SafetyRuleArn":"arn:arc:rule/0000000000000002"}
slot 9 token 10 200 {}
slot 10 token 11 200 {}
slot 11 token 12 200 {}
slot 12 token 13 409 {"Reason":"Forbidden","Rules":[{"Cause":"Waiting","SafetyRuleArn":"arn:arc:rule/0000000000000002","Until":122000}],"__type":"ConflictException"}
slot 13 token 14 200 {}
slot 14 token 15 200 {"RoutingControlArn":"arn:arc:control/0000000000000001","RoutingControlName":"cell-a","RoutingControlState":"On"}
slot 15 token 16 409 {"Reason":"NameTaken","Resource":"arn:arc:control/0000000000000004","__type":"ConflictException"}
slot 16 token 17 200 {}
slot 17 token 18 200 {}
slot 18 token 19 404 {"Reason":"NotFound","Resource":"arn:arc:rule/0000000000000001","__type":"ResourceNotFoundException"}
slot 19 token 20 200 {"SafetyRules":[{"Name":"one-on","SafetyRuleArn":"arn:arc:rule/0000000000000001","Type":"ASSERTION","WaitPeriodMs":0},{"Name":"guard","SafetyRuleArn":"arn:arc:rule/0000000000000002","Type":"GATING","WaitPeriodMs":1000}]}
slot 20 token 21 409 {"Reason":"InUse","Resource":"arn:arc:rule/0000000000000002","__type":"ConflictException"}
slot 21 token 22 200 {}
slot 22 token 23 200 {}
slot 23 token 24 200 {}
slot 24 token 25 409 {"Reason":"InUse","Resource":"arn:arc:control/0000000000000005","__type":"ConflictException"}
slot 25 token 26 200 {}
slot 26 token 27 200 {}
slot 27 token 28 200 {}
slot 28 token 29 200 {"RoutingControls":[{"ControlPanelArn":"arn:arc:panel/0000000000000001","RoutingControlArn":"arn:arc:control/0000000000000001","RoutingControlName":"cell-a","RoutingControlState":"On"},{"ControlPanelArn":"arn:arc:panel/0000000000000001","RoutingControlArn":"arn:arc:control/0000000000000002","RoutingControlName":"cell-b","RoutingControlState":"Off"}]}
slot 29 token 30 200 {"resourceIdentifier":"arn:arc:resource/0000000000000001"}
slot 30 token 31 409 {"Reason":"NameTaken","Resource":"arn:arc:resource/0000000000000001","__type":"ConflictException"}
slot 31 token 32 200 {"items":[{"name":"lb","resourceIdentifier":"arn:arc:resource/0000000000000001"}]}
slot 32 token 33 200 {"awayFrom":"use1-az1","comment":"x","expiryTime":2000000,"resourceIdentifier":"arn:arc:resource/0000000000000001","startTime":200000,"status":"ACTIVE","zonalShiftId":"00000000-0000-0000-0000-000000000001"}
slot 33 token 34 200 {"awayFrom":"use1-az1","comment":"x","expiryTime":3900000,"resourceIdentifier":"arn:arc:resource/0000000000000001","startTime":200000,"status":"ACTIVE","zonalShiftId":"00000000-0000-0000-0000-000000000001"}
slot 34 token 35 200 {"awayFrom":"use1-az1","comment":"x","expiryTime":3900000,"resourceIdentifier":"arn:arc:resource/0000000000000001","startTime":200000,"status":"CANCELED","zonalShiftId":"00000000-0000-0000-0000-000000000001"}
slot 35 token 36 200 {}
slot 36 token 37 200 {}
slot 37 token 38 200 {"awayFrom":"use1-az1","comment":"","expiryTime":2200000,"practiceRunOutcome":"PENDING","resourceIdentifier":"arn:arc:resource/0000000000000001","startTime":400000,"status":"ACTIVE","zonalShiftId":"00000000-0000-0000-0000-000000000002"}
slot 38 token 39 200 {"awayFrom":"use1-az1","comment":"","expiryTime":2200000,"practiceRunOutcome":"INTERRUPTED","resourceIdentifier":"arn:arc:resource/0000000000000001","startTime":400000,"status":"CANCELED","zonalShiftId":"00000000-0000-0000-0000-000000000002"}
slot 39 token 40 200 {"resourceIdentifier":"arn:arc:resource/0000000000000001","zonalAutoshiftStatus":"ENABLED"}
slot 40 token 41 200 {}
slot 41 token 42 200 {"appliedShift":{"awayFrom":"use1-az2","kind":"AUTOSHIFT"},"availabilityZones":["use1-az1","use1-az2"],"name":"lb","resourceIdentifier":"arn:arc:resource/0000000000000001","zonalAutoshiftStatus":"ENABLED"}
slot 42 token 43 200 {}
slot 43 token 44 200 {}
slot 44 token 45 200 {"resourceIdentifier":"arn:arc:resource/0000000000000001","zonalAutoshiftStatus":"DISABLED"}
slot 45 token 46 200 {}
slot 46 token 47 200 {"items":[{"awayFrom":"use1-az1","comment":"x","expiryTime":3900000,"resourceIdentifier":"arn:arc:resource/0000000000000001","startTime":200000,"status":"CANCELED","zonalShiftId":"00000000-0000-0000-0000-000000000001"},{"awayFrom":"use1-az1","comment":"","expiryTime":2200000,"practiceRunOutcome":"INTERRUPTED","resourceIdentifier":"arn:arc:resource/0000000000000001","startTime":400000,"status":"CANCELED","zonalShiftId":"00000000-0000-0000-0000-000000000002"}]}

== two cells change places, one at a time, and no reader sees both Off
new 0 0 0 cell-a
new 0 0 0 cell-b
set 0 1000 2 1 On
get 0 2000 3 1
get 0 2000 3 2
set 0 60000 5 2 On
set 0 61000 6 1 Off
get 0 62000 7 1
get 0 62000 7 2
----
slot 0 token 1 200 {"RoutingControl":{"ControlPanelArn":"arn:arc:panel/0000000000000001","Name":"cell-a","RoutingControlArn":"arn:arc:control/0000000000000001"}}
slot 1 token 2 200 {"RoutingControl":{"ControlPanelArn":"arn:arc:panel/0000000000000001","Name":"cell-b","RoutingControlArn":"arn:arc:control/0000000000000002"}}
slot 2 token 3 200 {}
slot 3 token 4 200 {"RoutingControlArn":"arn:arc:control/0000000000000001","RoutingControlName":"cell-a","RoutingControlState":"On"}
slot 4 token 5 200 {"RoutingControlArn":"arn:arc:control/0000000000000002","RoutingControlName":"cell-b","RoutingControlState":"Off"}
slot 5 token 6 200 {}
slot 6 token 7 200 {}
slot 7 token 8 200 {"RoutingControlArn":"arn:arc:control/0000000000000001","RoutingControlName":"cell-a","RoutingControlState":"Off"}
slot 8 token 9 200 {"RoutingControlArn":"arn:arc:control/0000000000000002","RoutingControlName":"cell-b","RoutingControlState":"On"}

== three cells are drained one after another, and never two at once
new 0 0 0 cell-a
new 0 0 0 cell-b
new 0 0 0 cell-c
batch 0 0 0 1=On,2=On,3=On -
# Two of three stay On, and half a minute lies between two changes.
assert 0 0 0 two-on ATLEAST:2 30000 1,2,3
set 0 1000 5 1 Off
set 0 2000 6 2 Off
set 0 2000 6 1 On
batch 0 30999 6 1=On,2=Off -
batch 0 31000 6 1=On,2=Off -
batch 0 61000 10 2=On,3=Off -
set 0 91000 11 3 On
call 0 91000 12 ListRoutingControls
----
slot 0 token 1 200 {"RoutingControl":{"ControlPanelArn":"arn:arc:panel/0000000000000001","Name":"cell-a","RoutingControlArn":"arn:arc:control/0000000000000001"}}
slot 1 token 2 200 {"RoutingControl":{"ControlPanelArn":"arn:arc:panel/0000000000000001","Name":"cell-b","RoutingControlArn":"arn:arc:control/0000000000000002"}}
slot 2 token 3 200 {"RoutingControl":{"ControlPanelArn":"arn:arc:panel/0000000000000001","Name":"cell-c","RoutingControlArn":"arn:arc:control/0000000000000003"}}
slot 3 token 4 200 {}
slot 4 token 5 200 {"SafetyRuleArn":"arn:arc:rule/0000000000000001"}
slot 5 token 6 200 {}
slot 6 token 7 409 {"Reason":"Forbidden","Rules":[{"Cause":"AssertFalse","SafetyRuleArn":"arn:arc:rule/0000000000000001"}],"__type":"ConflictException"}
slot 7 token 8 409 {"Reason":"Forbidden","Rules":[{"Cause":"Waiting","SafetyRuleArn":"arn:arc:rule/0000000000000001","Until":31000}],"__type":"ConflictException"}
slot 8 token 9 409 {"Reason":"Forbidden","Rules":[{"Cause":"Waiting","SafetyRuleArn":"arn:arc:rule/0000000000000001","Until":31000}],"__type":"ConflictException"}
slot 9 token 10 200 {}
slot 10 token 11 200 {}
slot 11 token 12 200 {}
slot 12 token 13 200 {"RoutingControls":[{"ControlPanelArn":"arn:arc:panel/0000000000000001","RoutingControlArn":"arn:arc:control/0000000000000001","RoutingControlName":"cell-a","RoutingControlState":"On"},{"ControlPanelArn":"arn:arc:panel/0000000000000001","RoutingControlArn":"arn:arc:control/0000000000000002","RoutingControlName":"cell-b","RoutingControlState":"On"},{"ControlPanelArn":"arn:arc:panel/0000000000000001","RoutingControlArn":"arn:arc:control/0000000000000003","RoutingControlName":"cell-c","RoutingControlState":"On"}]}

== a node crashes in the middle of a failover, and the operator goes on where the list stands
new 0 0 0 cell-a
new 0 0 0 cell-b
new 0 0 0 permission
set 0 1000 3 1 On
gate 0 1000 4 with-permission AND 60000 3 1,2
set 0 2000 5 3 On
batch 0 3000 6 1=Off,2=On -
crash 0
batch 0 4000 7 1=On,2=Off -
restart 0
# The switches are read before anything is set: the first batch was done, the second wasn't.
call 0 5000 7 ListRoutingControls
# The gate still waits for the change from before the crash.
batch 0 62999 8 1=On,2=Off -
batch 0 63000 8 1=On,2=Off -
set 0 63000 10 3 Off
batch 0 200000 11 1=Off,2=On -
----
slot 0 token 1 200 {"RoutingControl":{"ControlPanelArn":"arn:arc:panel/0000000000000001","Name":"cell-a","RoutingControlArn":"arn:arc:control/0000000000000001"}}
slot 1 token 2 200 {"RoutingControl":{"ControlPanelArn":"arn:arc:panel/0000000000000001","Name":"cell-b","RoutingControlArn":"arn:arc:control/0000000000000002"}}
slot 2 token 3 200 {"RoutingControl":{"ControlPanelArn":"arn:arc:panel/0000000000000001","Name":"permission","RoutingControlArn":"arn:arc:control/0000000000000003"}}
slot 3 token 4 200 {}
slot 4 token 5 200 {"SafetyRuleArn":"arn:arc:rule/0000000000000001"}
slot 5 token 6 200 {}
slot 6 token 7 200 {}
crash 0
down 0
restart 0 up 2
slot 7 token 8 200 {"RoutingControls":[{"ControlPanelArn":"arn:arc:panel/0000000000000001","RoutingControlArn":"arn:arc:control/0000000000000001","RoutingControlName":"cell-a","RoutingControlState":"Off"},{"ControlPanelArn":"arn:arc:panel/0000000000000001","RoutingControlArn":"arn:arc:control/0000000000000002","RoutingControlName":"cell-b","RoutingControlState":"On"},{"ControlPanelArn":"arn:arc:panel/0000000000000001","RoutingControlArn":"arn:arc:control/0000000000000003","RoutingControlName":"permission","RoutingControlState":"On"}]}
slot 8 token 9 409 {"Reason":"Forbidden","Rules":[{"Cause":"Waiting","SafetyRuleArn":"arn:arc:rule/0000000000000001","Until":63000}],"__type":"ConflictException"}
slot 9 token 10 200 {}
slot 10 token 11 200 {}
slot 11 token 12 409 {"Reason":"Forbidden","Rules":[{"Cause":"GateClosed","SafetyRuleArn":"arn:arc:rule/0000000000000001"}],"__type":"ConflictException"}

== two operators share a list, and the tokens tell who knows what
new 0 0 0 cell-a
new 0 0 1 cell-b
# The first sets a control and hands on the token of the reply; the second reads with it.
set 0 10 2 1 On
get 0 20 3 1
# A token that was taken down wrongly is noticed, and nothing is set.
set 0 30 33 2 On
get 0 40 5 2
----
slot 0 token 1 200 {"RoutingControl":{"ControlPanelArn":"arn:arc:panel/0000000000000001","Name":"cell-a","RoutingControlArn":"arn:arc:control/0000000000000001"}}
slot 1 token 2 200 {"RoutingControl":{"ControlPanelArn":"arn:arc:panel/0000000000000001","Name":"cell-b","RoutingControlArn":"arn:arc:control/0000000000000002"}}
slot 2 token 3 200 {}
slot 3 token 4 200 {"RoutingControlArn":"arn:arc:control/0000000000000001","RoutingControlName":"cell-a","RoutingControlState":"On"}
slot 4 token 5 409 {"Place":4,"Reason":"TokenAhead","Token":33,"__type":"ConflictException"}
slot 5 token 6 200 {"RoutingControlArn":"arn:arc:control/0000000000000002","RoutingControlName":"cell-b","RoutingControlState":"Off"}

== a panel is built, used and taken down
call 0 0 0 CreateControlPanel {"ControlPanelName":"shop"}
call 0 0 0 CreateRoutingControl {"RoutingControlName":"cell-a","ControlPanelArn":"arn:arc:panel/0000000000000002"}
call 0 0 0 CreateRoutingControl {"RoutingControlName":"cell-b","ControlPanelArn":"arn:arc:panel/0000000000000002"}
call 0 0 0 CreateRoutingControl {"RoutingControlName":"maintenance","ControlPanelArn":"arn:arc:panel/0000000000000002"}
call 0 0 0 CreateSafetyRule {"AssertionRule":{"Name":"one-on","ControlPanelArn":"arn:arc:panel/0000000000000002","AssertedControls":["arn:arc:control/0000000000000001","arn:arc:control/0000000000000002"],"RuleConfig":{"Type":"OR"},"WaitPeriodMs":0}}
call 0 0 0 CreateSafetyRule {"GatingRule":{"Name":"not-in-maintenance","ControlPanelArn":"arn:arc:panel/0000000000000002","GatingControls":["arn:arc:control/0000000000000003"],"TargetControls":["arn:arc:control/0000000000000001","arn:arc:control/0000000000000002"],"RuleConfig":{"Type":"AND","Inverted":true},"WaitPeriodMs":0}}
call 0 1000 0 UpdateRoutingControlStates {"UpdateRoutingControlStateEntries":[{"RoutingControlArn":"arn:arc:control/0000000000000001","RoutingControlState":"On"},{"RoutingControlArn":"arn:arc:control/0000000000000002","RoutingControlState":"On"}]}
# Maintenance freezes the cells.
call 0 2000 0 UpdateRoutingControlState {"RoutingControlArn":"arn:arc:control/0000000000000003","RoutingControlState":"On"}
call 0 3000 0 UpdateRoutingControlStates {"UpdateRoutingControlStateEntries":[{"RoutingControlArn":"arn:arc:control/0000000000000001","RoutingControlState":"Off"}]}
call 0 3000 0 UpdateRoutingControlStates {"UpdateRoutingControlStateEntries":[{"RoutingControlArn":"arn:arc:control/0000000000000001","RoutingControlState":"Off"}],"SafetyRulesToOverride":["arn:arc:rule/0000000000000002"]}
call 0 4000 0 UpdateRoutingControlState {"RoutingControlArn":"arn:arc:control/0000000000000002","RoutingControlState":"Off","SafetyRulesToOverride":["arn:arc:rule/0000000000000002"]}
call 0 5000 0 UpdateRoutingControlState {"RoutingControlArn":"arn:arc:control/0000000000000003","RoutingControlState":"Off"}
call 0 6000 0 UpdateRoutingControlState {"RoutingControlArn":"arn:arc:control/0000000000000001","RoutingControlState":"On"}
# Rules go first, then controls, then the panel.
call 0 7000 0 DeleteControlPanel {"ControlPanelArn":"arn:arc:panel/0000000000000002"}
call 0 7000 0 DeleteRoutingControl {"RoutingControlArn":"arn:arc:control/0000000000000001"}
call 0 7000 0 DeleteRoutingControl {"RoutingControlArn":"arn:arc:control/0000000000000003"}
call 0 7000 0 DeleteSafetyRule {"SafetyRuleArn":"arn:arc:rule/0000000000000001"}
call 0 7000 0 DeleteSafetyRule {"SafetyRuleArn":"arn:arc:rule/0000000000000002"}
call 0 7000 0 DeleteRoutingControl {"RoutingControlArn":"arn:arc:control/0000000000000001"}
call 0 7000 0 DeleteRoutingControl {"RoutingControlArn":"arn:arc:control/0000000000000002"}
call 0 7000 0 DeleteRoutingControl {"RoutingControlArn":"arn:arc:control/0000000000000003"}
call 0 7000 0 DeleteControlPanel {"ControlPanelArn":"arn:arc:panel/0000000000000002"}
call 0 8000 0 ListRoutingControls
----
slot 0 token 1 200 {"ControlPanel":{"ControlPanelArn":"arn:arc:panel/0000000000000002","Name":"shop"}}
slot 1 token 2 200 {"RoutingControl":{"ControlPanelArn":"arn:arc:panel/0000000000000002","Name":"cell-a","RoutingControlArn":"arn:arc:control/0000000000000001"}}
slot 2 token 3 200 {"RoutingControl":{"ControlPanelArn":"arn:arc:panel/0000000000000002","Name":"cell-b","RoutingControlArn":"arn:arc:control/0000000000000002"}}
slot 3 token 4 200 {"RoutingControl":{"ControlPanelArn":"arn:arc:panel/0000000000000002","Name":"maintenance","RoutingControlArn":"arn:arc:control/0000000000000003"}}
slot 4 token 5 200 {"SafetyRuleArn":"arn:arc:rule/0000000000000001"}
slot 5 token 6 200 {"SafetyRuleArn":"arn:arc:rule/0000000000000002"}
slot 6 token 7 200 {}
slot 7 token 8 200 {}
slot 8 token 9 409 {"Reason":"Forbidden","Rules":[{"Cause":"GateClosed","SafetyRuleArn":"arn:arc:rule/0000000000000002"}],"__type":"ConflictException"}
slot 9 token 10 200 {}
slot 10 token 11 409 {"Reason":"Forbidden","Rules":[{"Cause":"AssertFalse","SafetyRuleArn":"arn:arc:rule/0000000000000001"}],"__type":"ConflictException"}
slot 11 token 12 200 {}
slot 12 token 13 200 {}
slot 13 token 14 409 {"Reason":"InUse","Resource":"arn:arc:control/0000000000000001","__type":"ConflictException"}
slot 14 token 15 409 {"Reason":"InUse","Resource":"arn:arc:rule/0000000000000001","__type":"ConflictException"}
slot 15 token 16 409 {"Reason":"InUse","Resource":"arn:arc:rule/0000000000000002","__type":"ConflictException"}
slot 16 token 17 200 {}
slot 17 token 18 200 {}
slot 18 token 19 200 {}
slot 19 token 20 200 {}
slot 20 token 21 200 {}
slot 21 token 22 200 {}
slot 22 token 23 200 {"RoutingControls":[]}
