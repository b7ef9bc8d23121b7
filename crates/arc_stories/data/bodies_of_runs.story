# The bodies of practice runs, autoshifts and alarms.

== a configuration is deleted
call 0 0 0 RegisterManagedResource {"name":"r","availabilityZones":["z"]}
call 0 0 0 CreatePracticeRunConfiguration {"resourceIdentifier":"arn:arc:resource/0000000000000001","outcomeAlarms":[{"alarmIdentifier":"o"}]}
call 0 0 0 DeletePracticeRunConfiguration {"resourceIdentifier":"arn:arc:resource/0000000000000001"}
call 0 0 0 StartPracticeRun {"resourceIdentifier":"arn:arc:resource/0000000000000001","awayFrom":"z","comment":""}
----
slot 0 token 1 200 {"resourceIdentifier":"arn:arc:resource/0000000000000001"}
slot 1 token 2 200 {}
slot 2 token 3 200 {}
slot 3 token 4 404 {"Reason":"NotConfigured","Resource":"arn:arc:resource/0000000000000001","__type":"ResourceNotFoundException"}

== a run has its comment and is cancelled
call 0 0 0 RegisterManagedResource {"name":"r","availabilityZones":["z"]}
call 0 0 0 CreatePracticeRunConfiguration {"resourceIdentifier":"arn:arc:resource/0000000000000001","outcomeAlarms":[{"alarmIdentifier":"o"}]}
call 0 0 0 StartPracticeRun {"resourceIdentifier":"arn:arc:resource/0000000000000001","awayFrom":"z","comment":"weekly"}
call 0 1 0 CancelPracticeRun {"zonalShiftId":"00000000-0000-0000-0000-000000000001"}
----
slot 0 token 1 200 {"resourceIdentifier":"arn:arc:resource/0000000000000001"}
slot 1 token 2 200 {}
slot 2 token 3 200 {"awayFrom":"z","comment":"weekly","expiryTime":1800000,"practiceRunOutcome":"PENDING","resourceIdentifier":"arn:arc:resource/0000000000000001","startTime":0,"status":"ACTIVE","zonalShiftId":"00000000-0000-0000-0000-000000000001"}
slot 3 token 4 200 {"awayFrom":"z","comment":"weekly","expiryTime":1800000,"practiceRunOutcome":"INTERRUPTED","resourceIdentifier":"arn:arc:resource/0000000000000001","startTime":0,"status":"CANCELED","zonalShiftId":"00000000-0000-0000-0000-000000000001"}

== autoshift is enabled and disabled
call 0 0 0 RegisterManagedResource {"name":"r","availabilityZones":["z"]}
call 0 0 0 UpdateZonalAutoshiftConfiguration {"resourceIdentifier":"arn:arc:resource/0000000000000001","zonalAutoshiftStatus":"DISABLED"}
call 0 0 0 CreatePracticeRunConfiguration {"resourceIdentifier":"arn:arc:resource/0000000000000001","outcomeAlarms":[{"alarmIdentifier":"o"}]}
call 0 0 0 UpdateZonalAutoshiftConfiguration {"resourceIdentifier":"arn:arc:resource/0000000000000001","zonalAutoshiftStatus":"ENABLED"}
call 0 0 0 GetManagedResource {"resourceIdentifier":"arn:arc:resource/0000000000000001"}
call 0 0 0 UpdateZonalAutoshiftConfiguration {"resourceIdentifier":"arn:arc:resource/0000000000000001","zonalAutoshiftStatus":"DISABLED"}
call 0 0 0 GetManagedResource {"resourceIdentifier":"arn:arc:resource/0000000000000001"}
----
slot 0 token 1 200 {"resourceIdentifier":"arn:arc:resource/0000000000000001"}
slot 1 token 2 200 {"resourceIdentifier":"arn:arc:resource/0000000000000001","zonalAutoshiftStatus":"DISABLED"}
slot 2 token 3 200 {}
slot 3 token 4 200 {"resourceIdentifier":"arn:arc:resource/0000000000000001","zonalAutoshiftStatus":"ENABLED"}
slot 4 token 5 200 {"appliedShift":null,"availabilityZones":["z"],"name":"r","resourceIdentifier":"arn:arc:resource/0000000000000001","zonalAutoshiftStatus":"ENABLED"}
slot 5 token 6 200 {"resourceIdentifier":"arn:arc:resource/0000000000000001","zonalAutoshiftStatus":"DISABLED"}
slot 6 token 7 200 {"appliedShift":null,"availabilityZones":["z"],"name":"r","resourceIdentifier":"arn:arc:resource/0000000000000001","zonalAutoshiftStatus":"DISABLED"}

== an autoshift starts and ends in a zone of up to 32 bytes
call 0 0 0 StartAutoshift {"awayFrom":"zzzzzzzzzzzzzzzzzzzzzzzzzzzzzzzz"}
call 0 0 0 EndAutoshift {"awayFrom":"zzzzzzzzzzzzzzzzzzzzzzzzzzzzzzzz"}
call 0 0 0 EndAutoshift {"awayFrom":"zzzzzzzzzzzzzzzzzzzzzzzzzzzzzzzz"}
----
slot 0 token 1 200 {}
slot 1 token 2 200 {}
slot 2 token 3 404 {"Reason":"NotFound","Resource":"zzzzzzzzzzzzzzzzzzzzzzzzzzzzzzzz","__type":"ResourceNotFoundException"}

== DeletePracticeRunConfiguration without resourceIdentifier
call 0 0 0 DeletePracticeRunConfiguration {}
---- status 6
script line 1: MissingMember

== DeletePracticeRunConfiguration with resourceIdentifier that is a number
call 0 0 0 DeletePracticeRunConfiguration {"resourceIdentifier":1}
---- status 6
script line 1: WrongType

== DeletePracticeRunConfiguration with resourceIdentifier of another kind
call 0 0 0 DeletePracticeRunConfiguration {"resourceIdentifier":"arn:arc:panel/0000000000000001"}
---- status 6
script line 1: BadId

== StartPracticeRun without resourceIdentifier
call 0 0 0 StartPracticeRun {"awayFrom":1,"comment":1}
---- status 6
script line 1: MissingMember

== StartPracticeRun with resourceIdentifier that is a number
call 0 0 0 StartPracticeRun {"resourceIdentifier":1,"awayFrom":1,"comment":1}
---- status 6
script line 1: WrongType

== StartPracticeRun with resourceIdentifier of another kind
call 0 0 0 StartPracticeRun {"resourceIdentifier":"arn:arc:panel/0000000000000001","awayFrom":1,"comment":1}
---- status 6
script line 1: BadId

== StartPracticeRun without awayFrom
call 0 0 0 StartPracticeRun {"resourceIdentifier":"arn:arc:resource/0000000000000001","comment":1}
---- status 6
script line 1: MissingMember

== StartPracticeRun with awayFrom that is a number
call 0 0 0 StartPracticeRun {"resourceIdentifier":"arn:arc:resource/0000000000000001","awayFrom":1,"comment":1}
---- status 6
script line 1: WrongType

== StartPracticeRun with awayFrom that is empty
call 0 0 0 StartPracticeRun {"resourceIdentifier":"arn:arc:resource/0000000000000001","awayFrom":"","comment":1}
---- status 6
script line 1: BadZone

== StartPracticeRun with awayFrom of 33 bytes
call 0 0 0 StartPracticeRun {"resourceIdentifier":"arn:arc:resource/0000000000000001","awayFrom":"zzzzzzzzzzzzzzzzzzzzzzzzzzzzzzzzz","comment":1}
---- status 6
script line 1: BadZone

== StartPracticeRun without comment
call 0 0 0 StartPracticeRun {"resourceIdentifier":"arn:arc:resource/0000000000000001","awayFrom":"z"}
---- status 6
script line 1: MissingMember

== StartPracticeRun with comment that is an object
call 0 0 0 StartPracticeRun {"resourceIdentifier":"arn:arc:resource/0000000000000001","awayFrom":"z","comment":{}}
---- status 6
script line 1: WrongType

== StartPracticeRun with comment of 129 bytes
call 0 0 0 StartPracticeRun {"resourceIdentifier":"arn:arc:resource/0000000000000001","awayFrom":"z","comment":"ccccccccccccccccccccccccccccccccccccccccccccccccccccccccccccccccccccccccccccccccccccccccccccccccccccccccccccccccccccccccccccccccc"}
---- status 6
script line 1: BadComment

== StartPracticeRun with comment of 65 letters in 130 bytes
call 0 0 0 StartPracticeRun {"resourceIdentifier":"arn:arc:resource/0000000000000001","awayFrom":"z","comment":"üüüüüüüüüüüüüüüüüüüüüüüüüüüüüüüüüüüüüüüüüüüüüüüüüüüüüüüüüüüüüüüüü"}
---- status 6
script line 1: BadComment

== CancelPracticeRun without zonalShiftId
call 0 0 0 CancelPracticeRun {}
---- status 6
script line 1: MissingMember

== CancelPracticeRun with zonalShiftId that is a number
call 0 0 0 CancelPracticeRun {"zonalShiftId":1}
---- status 6
script line 1: WrongType

== CancelPracticeRun with zonalShiftId of another kind
call 0 0 0 CancelPracticeRun {"zonalShiftId":"arn:arc:resource/0000000000000001"}
---- status 6
script line 1: BadId

== UpdateZonalAutoshiftConfiguration without resourceIdentifier
call 0 0 0 UpdateZonalAutoshiftConfiguration {"zonalAutoshiftStatus":1}
---- status 6
script line 1: MissingMember

== UpdateZonalAutoshiftConfiguration with resourceIdentifier that is a number
call 0 0 0 UpdateZonalAutoshiftConfiguration {"resourceIdentifier":1,"zonalAutoshiftStatus":1}
---- status 6
script line 1: WrongType

== UpdateZonalAutoshiftConfiguration with resourceIdentifier of another kind
call 0 0 0 UpdateZonalAutoshiftConfiguration {"resourceIdentifier":"arn:arc:panel/0000000000000001","zonalAutoshiftStatus":1}
---- status 6
script line 1: BadId

== UpdateZonalAutoshiftConfiguration without zonalAutoshiftStatus
call 0 0 0 UpdateZonalAutoshiftConfiguration {"resourceIdentifier":"arn:arc:resource/0000000000000001"}
---- status 6
script line 1: MissingMember

== UpdateZonalAutoshiftConfiguration with zonalAutoshiftStatus that is true
call 0 0 0 UpdateZonalAutoshiftConfiguration {"resourceIdentifier":"arn:arc:resource/0000000000000001","zonalAutoshiftStatus":true}
---- status 6
script line 1: WrongType

== UpdateZonalAutoshiftConfiguration with zonalAutoshiftStatus of a shift
call 0 0 0 UpdateZonalAutoshiftConfiguration {"resourceIdentifier":"arn:arc:resource/0000000000000001","zonalAutoshiftStatus":"ACTIVE"}
---- status 6
script line 1: BadStatus

== UpdateZonalAutoshiftConfiguration with zonalAutoshiftStatus in small letters
call 0 0 0 UpdateZonalAutoshiftConfiguration {"resourceIdentifier":"arn:arc:resource/0000000000000001","zonalAutoshiftStatus":"Enabled"}
---- status 6
script line 1: BadStatus

== UpdateZonalAutoshiftConfiguration with zonalAutoshiftStatus that is empty
call 0 0 0 UpdateZonalAutoshiftConfiguration {"resourceIdentifier":"arn:arc:resource/0000000000000001","zonalAutoshiftStatus":""}
---- status 6
script line 1: BadStatus

== StartAutoshift without awayFrom
call 0 0 0 StartAutoshift {}
---- status 6
script line 1: MissingMember

== StartAutoshift with awayFrom that is a number
call 0 0 0 StartAutoshift {"awayFrom":1}
---- status 6
script line 1: WrongType

== StartAutoshift with awayFrom that is empty
call 0 0 0 StartAutoshift {"awayFrom":""}
---- status 6
script line 1: BadZone

== StartAutoshift with awayFrom of 33 bytes
call 0 0 0 StartAutoshift {"awayFrom":"zzzzzzzzzzzzzzzzzzzzzzzzzzzzzzzzz"}
---- status 6
script line 1: BadZone

== EndAutoshift without awayFrom
call 0 0 0 EndAutoshift {}
---- status 6
script line 1: MissingMember

== EndAutoshift with awayFrom that is a number
call 0 0 0 EndAutoshift {"awayFrom":1}
---- status 6
script line 1: WrongType

== EndAutoshift with awayFrom that is empty
call 0 0 0 EndAutoshift {"awayFrom":""}
---- status 6
script line 1: BadZone

== EndAutoshift with awayFrom of 33 bytes
call 0 0 0 EndAutoshift {"awayFrom":"zzzzzzzzzzzzzzzzzzzzzzzzzzzzzzzzz"}
---- status 6
script line 1: BadZone

== SetAlarmState without alarmIdentifier
call 0 0 0 SetAlarmState {"state":1}
---- status 6
script line 1: MissingMember

== SetAlarmState with alarmIdentifier that is a number
call 0 0 0 SetAlarmState {"alarmIdentifier":1,"state":1}
---- status 6
script line 1: WrongType

== SetAlarmState with alarmIdentifier that is empty
call 0 0 0 SetAlarmState {"alarmIdentifier":"","state":1}
---- status 6
script line 1: BadName

== SetAlarmState with alarmIdentifier of 65 bytes
call 0 0 0 SetAlarmState {"alarmIdentifier":"xxxxxxxxxxxxxxxxxxxxxxxxxxxxxxxxxxxxxxxxxxxxxxxxxxxxxxxxxxxxxxxxx","state":1}
---- status 6
script line 1: BadName

== SetAlarmState without state
call 0 0 0 SetAlarmState {"alarmIdentifier":"a"}
---- status 6
script line 1: MissingMember

== SetAlarmState with state that is a number
call 0 0 0 SetAlarmState {"alarmIdentifier":"a","state":1}
---- status 6
script line 1: WrongType

== SetAlarmState with state of a resource
call 0 0 0 SetAlarmState {"alarmIdentifier":"a","state":"ENABLED"}
---- status 6
script line 1: BadStatus

== SetAlarmState with state that isn't there
call 0 0 0 SetAlarmState {"alarmIdentifier":"a","state":"RED"}
---- status 6
script line 1: BadStatus

== SetAlarmState with state in small letters
call 0 0 0 SetAlarmState {"alarmIdentifier":"a","state":"ok"}
---- status 6
script line 1: BadStatus

== SetAlarmState with state of a control
call 0 0 0 SetAlarmState {"alarmIdentifier":"a","state":"On"}
---- status 6
script line 1: BadStatus
