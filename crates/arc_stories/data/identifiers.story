# Identifiers: the texts that name panels, controls, rules, resources and shifts. Lower case is written, either case is read.

== the number of a panel may be 0
call 0 0 0 ListRoutingControls {"ControlPanelArn":"arn:arc:panel/0000000000000000"}
----
slot 0 token 1 404 {"Reason":"NotFound","Resource":"arn:arc:panel/0000000000000000","__type":"ResourceNotFoundException"}

== the number of a panel may be the greatest of 64 bits
call 0 0 0 ListRoutingControls {"ControlPanelArn":"arn:arc:panel/ffffffffffffffff"}
----
slot 0 token 1 404 {"Reason":"NotFound","Resource":"arn:arc:panel/ffffffffffffffff","__type":"ResourceNotFoundException"}

== the digits of a panel may stand in either case
call 0 0 0 ListRoutingControls {"ControlPanelArn":"arn:arc:panel/ABCDEFabcdef0123"}
----
slot 0 token 1 404 {"Reason":"NotFound","Resource":"arn:arc:panel/abcdefabcdef0123","__type":"ResourceNotFoundException"}

== a panel that is empty
call 0 0 0 ListRoutingControls {"ControlPanelArn":""}
---- status 6
script line 1: BadId

== a panel with 15 digits
call 0 0 0 ListRoutingControls {"ControlPanelArn":"arn:arc:panel/000000000000001"}
---- status 6
script line 1: BadId

== a panel with 17 digits
call 0 0 0 ListRoutingControls {"ControlPanelArn":"arn:arc:panel/00000000000000001"}
---- status 6
script line 1: BadId

== a panel without digits
call 0 0 0 ListRoutingControls {"ControlPanelArn":"arn:arc:panel/"}
---- status 6
script line 1: BadId

== a panel with a letter behind f
call 0 0 0 ListRoutingControls {"ControlPanelArn":"arn:arc:panel/000000000000000g"}
---- status 6
script line 1: BadId

== a panel with a sign
call 0 0 0 ListRoutingControls {"ControlPanelArn":"arn:arc:panel/+000000000000001"}
---- status 6
script line 1: BadId

== a panel in capital letters
call 0 0 0 ListRoutingControls {"ControlPanelArn":"ARN:ARC:PANEL/0000000000000001"}
---- status 6
script line 1: BadId

== a panel whose first letters are capital
call 0 0 0 ListRoutingControls {"ControlPanelArn":"ARN:arc:panel/0000000000000001"}
---- status 6
script line 1: BadId

== a panel with a blank behind it
call 0 0 0 ListRoutingControls {"ControlPanelArn":"arn:arc:panel/0000000000000001 "}
---- status 6
script line 1: BadId

== a panel with a blank before it
call 0 0 0 ListRoutingControls {"ControlPanelArn":" arn:arc:panel/0000000000000001"}
---- status 6
script line 1: BadId

== a panel without its first part
call 0 0 0 ListRoutingControls {"ControlPanelArn":"panel/0000000000000001"}
---- status 6
script line 1: BadId

== a panel that is only digits
call 0 0 0 ListRoutingControls {"ControlPanelArn":"0000000000000001"}
---- status 6
script line 1: BadId

== a panel with a colon in place of its slash
call 0 0 0 ListRoutingControls {"ControlPanelArn":"arn:arc:panel:0000000000000001"}
---- status 6
script line 1: BadId

== a panel in digits of another script
call 0 0 0 ListRoutingControls {"ControlPanelArn":"arn:arc:panel/٣٣٣٣٣٣٣٣"}
---- status 6
script line 1: BadId

== a control is no panel
call 0 0 0 ListRoutingControls {"ControlPanelArn":"arn:arc:control/0000000000000001"}
---- status 6
script line 1: BadId

== a rule is no panel
call 0 0 0 ListRoutingControls {"ControlPanelArn":"arn:arc:rule/0000000000000001"}
---- status 6
script line 1: BadId

== a resource is no panel
call 0 0 0 ListRoutingControls {"ControlPanelArn":"arn:arc:resource/0000000000000001"}
---- status 6
script line 1: BadId

== a shift is no panel
call 0 0 0 ListRoutingControls {"ControlPanelArn":"00000000-0000-0000-0000-000000000001"}
---- status 6
script line 1: BadId

== the number of a control may be 0
call 0 0 0 GetRoutingControlState {"RoutingControlArn":"arn:arc:control/0000000000000000"}
----
slot 0 token 1 404 {"Reason":"NotFound","Resource":"arn:arc:control/0000000000000000","__type":"ResourceNotFoundException"}

== the number of a control may be the greatest of 64 bits
call 0 0 0 GetRoutingControlState {"RoutingControlArn":"arn:arc:control/ffffffffffffffff"}
----
slot 0 token 1 404 {"Reason":"NotFound","Resource":"arn:arc:control/ffffffffffffffff","__type":"ResourceNotFoundException"}

== the digits of a control may stand in either case
call 0 0 0 GetRoutingControlState {"RoutingControlArn":"arn:arc:control/ABCDEFabcdef0123"}
----
slot 0 token 1 404 {"Reason":"NotFound","Resource":"arn:arc:control/abcdefabcdef0123","__type":"ResourceNotFoundException"}

== a control that is empty
call 0 0 0 GetRoutingControlState {"RoutingControlArn":""}
---- status 6
script line 1: BadId

== a control with 15 digits
call 0 0 0 GetRoutingControlState {"RoutingControlArn":"arn:arc:control/000000000000001"}
---- status 6
script line 1: BadId

== a control with 17 digits
call 0 0 0 GetRoutingControlState {"RoutingControlArn":"arn:arc:control/00000000000000001"}
---- status 6
script line 1: BadId

== a control without digits
call 0 0 0 GetRoutingControlState {"RoutingControlArn":"arn:arc:control/"}
---- status 6
script line 1: BadId

== a control with a letter behind f
call 0 0 0 GetRoutingControlState {"RoutingControlArn":"arn:arc:control/000000000000000g"}
---- status 6
script line 1: BadId

== a control with a sign
call 0 0 0 GetRoutingControlState {"RoutingControlArn":"arn:arc:control/+000000000000001"}
---- status 6
script line 1: BadId

== a control in capital letters
call 0 0 0 GetRoutingControlState {"RoutingControlArn":"ARN:ARC:CONTROL/0000000000000001"}
---- status 6
script line 1: BadId

== a control whose first letters are capital
call 0 0 0 GetRoutingControlState {"RoutingControlArn":"ARN:arc:control/0000000000000001"}
---- status 6
script line 1: BadId

== a control with a blank behind it
call 0 0 0 GetRoutingControlState {"RoutingControlArn":"arn:arc:control/0000000000000001 "}
---- status 6
script line 1: BadId

== a control with a blank before it
call 0 0 0 GetRoutingControlState {"RoutingControlArn":" arn:arc:control/0000000000000001"}
---- status 6
script line 1: BadId

== a control without its first part
call 0 0 0 GetRoutingControlState {"RoutingControlArn":"control/0000000000000001"}
---- status 6
script line 1: BadId

== a control that is only digits
call 0 0 0 GetRoutingControlState {"RoutingControlArn":"0000000000000001"}
---- status 6
script line 1: BadId

== a control with a colon in place of its slash
call 0 0 0 GetRoutingControlState {"RoutingControlArn":"arn:arc:control:0000000000000001"}
---- status 6
script line 1: BadId

== a control in digits of another script
call 0 0 0 GetRoutingControlState {"RoutingControlArn":"arn:arc:control/٣٣٣٣٣٣٣٣"}
---- status 6
script line 1: BadId

== a panel is no control
call 0 0 0 GetRoutingControlState {"RoutingControlArn":"arn:arc:panel/0000000000000001"}
---- status 6
script line 1: BadId

== a rule is no control
call 0 0 0 GetRoutingControlState {"RoutingControlArn":"arn:arc:rule/0000000000000001"}
---- status 6
script line 1: BadId

== a resource is no control
call 0 0 0 GetRoutingControlState {"RoutingControlArn":"arn:arc:resource/0000000000000001"}
---- status 6
script line 1: BadId

== a shift is no control
call 0 0 0 GetRoutingControlState {"RoutingControlArn":"00000000-0000-0000-0000-000000000001"}
---- status 6
script line 1: BadId

== the number of a rule may be 0
call 0 0 0 DeleteSafetyRule {"SafetyRuleArn":"arn:arc:rule/0000000000000000"}
----
slot 0 token 1 404 {"Reason":"NotFound","Resource":"arn:arc:rule/0000000000000000","__type":"ResourceNotFoundException"}

== the number of a rule may be the greatest of 64 bits
call 0 0 0 DeleteSafetyRule {"SafetyRuleArn":"arn:arc:rule/ffffffffffffffff"}
----
slot 0 token 1 404 {"Reason":"NotFound","Resource":"arn:arc:rule/ffffffffffffffff","__type":"ResourceNotFoundException"}

== the digits of a rule may stand in either case
call 0 0 0 DeleteSafetyRule {"SafetyRuleArn":"arn:arc:rule/ABCDEFabcdef0123"}
----
slot 0 token 1 404 {"Reason":"NotFound","Resource":"arn:arc:rule/abcdefabcdef0123","__type":"ResourceNotFoundException"}

== a rule that is empty
call 0 0 0 DeleteSafetyRule {"SafetyRuleArn":""}
---- status 6
script line 1: BadId

== a rule with 15 digits
call 0 0 0 DeleteSafetyRule {"SafetyRuleArn":"arn:arc:rule/000000000000001"}
---- status 6
script line 1: BadId

== a rule with 17 digits
call 0 0 0 DeleteSafetyRule {"SafetyRuleArn":"arn:arc:rule/00000000000000001"}
---- status 6
script line 1: BadId

== a rule without digits
call 0 0 0 DeleteSafetyRule {"SafetyRuleArn":"arn:arc:rule/"}
---- status 6
script line 1: BadId

== a rule with a letter behind f
call 0 0 0 DeleteSafetyRule {"SafetyRuleArn":"arn:arc:rule/000000000000000g"}
---- status 6
script line 1: BadId

== a rule with a sign
call 0 0 0 DeleteSafetyRule {"SafetyRuleArn":"arn:arc:rule/+000000000000001"}
---- status 6
script line 1: BadId

== a rule in capital letters
call 0 0 0 DeleteSafetyRule {"SafetyRuleArn":"ARN:ARC:RULE/0000000000000001"}
---- status 6
script line 1: BadId

== a rule whose first letters are capital
call 0 0 0 DeleteSafetyRule {"SafetyRuleArn":"ARN:arc:rule/0000000000000001"}
---- status 6
script line 1: BadId

== a rule with a blank behind it
call 0 0 0 DeleteSafetyRule {"SafetyRuleArn":"arn:arc:rule/0000000000000001 "}
---- status 6
script line 1: BadId

== a rule with a blank before it
call 0 0 0 DeleteSafetyRule {"SafetyRuleArn":" arn:arc:rule/0000000000000001"}
---- status 6
script line 1: BadId

== a rule without its first part
call 0 0 0 DeleteSafetyRule {"SafetyRuleArn":"rule/0000000000000001"}
---- status 6
script line 1: BadId

== a rule that is only digits
call 0 0 0 DeleteSafetyRule {"SafetyRuleArn":"0000000000000001"}
---- status 6
script line 1: BadId

== a rule with a colon in place of its slash
call 0 0 0 DeleteSafetyRule {"SafetyRuleArn":"arn:arc:rule:0000000000000001"}
---- status 6
script line 1: BadId

== a rule in digits of another script
call 0 0 0 DeleteSafetyRule {"SafetyRuleArn":"arn:arc:rule/٣٣٣٣٣٣٣٣"}
---- status 6
script line 1: BadId

== a panel is no rule
call 0 0 0 DeleteSafetyRule {"SafetyRuleArn":"arn:arc:panel/0000000000000001"}
---- status 6
script line 1: BadId

== a control is no rule
call 0 0 0 DeleteSafetyRule {"SafetyRuleArn":"arn:arc:control/0000000000000001"}
---- status 6
script line 1: BadId

== a resource is no rule
call 0 0 0 DeleteSafetyRule {"SafetyRuleArn":"arn:arc:resource/0000000000000001"}
---- status 6
script line 1: BadId

== a shift is no rule
call 0 0 0 DeleteSafetyRule {"SafetyRuleArn":"00000000-0000-0000-0000-000000000001"}
---- status 6
script line 1: BadId

== the number of a resource may be 0
call 0 0 0 GetManagedResource {"resourceIdentifier":"arn:arc:resource/0000000000000000"}
----
slot 0 token 1 404 {"Reason":"NotFound","Resource":"arn:arc:resource/0000000000000000","__type":"ResourceNotFoundException"}

== the number of a resource may be the greatest of 64 bits
call 0 0 0 GetManagedResource {"resourceIdentifier":"arn:arc:resource/ffffffffffffffff"}
----
slot 0 token 1 404 {"Reason":"NotFound","Resource":"arn:arc:resource/ffffffffffffffff","__type":"ResourceNotFoundException"}

== the digits of a resource may stand in either case
call 0 0 0 GetManagedResource {"resourceIdentifier":"arn:arc:resource/ABCDEFabcdef0123"}
----
slot 0 token 1 404 {"Reason":"NotFound","Resource":"arn:arc:resource/abcdefabcdef0123","__type":"ResourceNotFoundException"}

== a resource that is empty
call 0 0 0 GetManagedResource {"resourceIdentifier":""}
---- status 6
script line 1: BadId

== a resource with 15 digits
call 0 0 0 GetManagedResource {"resourceIdentifier":"arn:arc:resource/000000000000001"}
---- status 6
script line 1: BadId

== a resource with 17 digits
call 0 0 0 GetManagedResource {"resourceIdentifier":"arn:arc:resource/00000000000000001"}
---- status 6
script line 1: BadId

== a resource without digits
call 0 0 0 GetManagedResource {"resourceIdentifier":"arn:arc:resource/"}
---- status 6
script line 1: BadId

== a resource with a letter behind f
call 0 0 0 GetManagedResource {"resourceIdentifier":"arn:arc:resource/000000000000000g"}
---- status 6
script line 1: BadId

== a resource with a sign
call 0 0 0 GetManagedResource {"resourceIdentifier":"arn:arc:resource/+000000000000001"}
---- status 6
script line 1: BadId

== a resource in capital letters
call 0 0 0 GetManagedResource {"resourceIdentifier":"ARN:ARC:RESOURCE/0000000000000001"}
---- status 6
script line 1: BadId

== a resource whose first letters are capital
call 0 0 0 GetManagedResource {"resourceIdentifier":"ARN:arc:resource/0000000000000001"}
---- status 6
script line 1: BadId

== a resource with a blank behind it
call 0 0 0 GetManagedResource {"resourceIdentifier":"arn:arc:resource/0000000000000001 "}
---- status 6
script line 1: BadId

== a resource with a blank before it
call 0 0 0 GetManagedResource {"resourceIdentifier":" arn:arc:resource/0000000000000001"}
---- status 6
script line 1: BadId

== a resource without its first part
call 0 0 0 GetManagedResource {"resourceIdentifier":"resource/0000000000000001"}
---- status 6
script line 1: BadId

== a resource that is only digits
call 0 0 0 GetManagedResource {"resourceIdentifier":"0000000000000001"}
---- status 6
script line 1: BadId

== a resource with a colon in place of its slash
call 0 0 0 GetManagedResource {"resourceIdentifier":"arn:arc:resource:0000000000000001"}
---- status 6
script line 1: BadId

== a resource in digits of another script
call 0 0 0 GetManagedResource {"resourceIdentifier":"arn:arc:resource/٣٣٣٣٣٣٣٣"}
---- status 6
script line 1: BadId

== a panel is no resource
call 0 0 0 GetManagedResource {"resourceIdentifier":"arn:arc:panel/0000000000000001"}
---- status 6
script line 1: BadId

== a control is no resource
call 0 0 0 GetManagedResource {"resourceIdentifier":"arn:arc:control/0000000000000001"}
---- status 6
script line 1: BadId

== a rule is no resource
call 0 0 0 GetManagedResource {"resourceIdentifier":"arn:arc:rule/0000000000000001"}
---- status 6
script line 1: BadId

== a shift is no resource
call 0 0 0 GetManagedResource {"resourceIdentifier":"00000000-0000-0000-0000-000000000001"}
---- status 6
script line 1: BadId

== the number of a shift may be 0
call 0 0 0 CancelZonalShift {"zonalShiftId":"00000000-0000-0000-0000-000000000000"}
----
slot 0 token 1 404 {"Reason":"NotFound","Resource":"00000000-0000-0000-0000-000000000000","__type":"ResourceNotFoundException"}

== the lower half of the text of a shift is its number
call 0 0 0 CancelZonalShift {"zonalShiftId":"00000000-0000-0000-FFFF-ffffffffffff"}
----
slot 0 token 1 404 {"Reason":"NotFound","Resource":"00000000-0000-0000-ffff-ffffffffffff","__type":"ResourceNotFoundException"}

== the text of a shift may lack its hyphens
call 0 0 0 CancelZonalShift {"zonalShiftId":"000000000000000000000000000000fF"}
----
slot 0 token 1 404 {"Reason":"NotFound","Resource":"00000000-0000-0000-0000-0000000000ff","__type":"ResourceNotFoundException"}

== the text of a shift may stand in braces
call 0 0 0 CancelZonalShift {"zonalShiftId":"{00000000-0000-0000-0000-0000000000FF}"}
----
slot 0 token 1 404 {"Reason":"NotFound","Resource":"00000000-0000-0000-0000-0000000000ff","__type":"ResourceNotFoundException"}

== the text of a shift may be a name in a namespace
call 0 0 0 CancelZonalShift {"zonalShiftId":"urn:uuid:00000000-0000-0000-0000-000000000001"}
----
slot 0 token 1 404 {"Reason":"NotFound","Resource":"00000000-0000-0000-0000-000000000001","__type":"ResourceNotFoundException"}

== the namespace of a shift may stand in capital letters
call 0 0 0 CancelZonalShift {"zonalShiftId":"URN:UUID:00000000-0000-0000-0000-000000000001"}
----
slot 0 token 1 404 {"Reason":"NotFound","Resource":"00000000-0000-0000-0000-000000000001","__type":"ResourceNotFoundException"}

== the digits of a shift may stand in either case
call 0 0 0 CancelZonalShift {"zonalShiftId":"00000000-0000-0000-ABCD-EFabcdef0123"}
----
slot 0 token 1 404 {"Reason":"NotFound","Resource":"00000000-0000-0000-abcd-efabcdef0123","__type":"ResourceNotFoundException"}

== a shift that is empty
call 0 0 0 CancelZonalShift {"zonalShiftId":""}
---- status 6
script line 1: BadId

== a shift that is a number
call 0 0 0 CancelZonalShift {"zonalShiftId":"1"}
---- status 6
script line 1: BadId

== a shift in the form of the others
call 0 0 0 CancelZonalShift {"zonalShiftId":"arn:arc:shift/0000000000000001"}
---- status 6
script line 1: BadId

== a shift with a bit in its upper half
call 0 0 0 CancelZonalShift {"zonalShiftId":"00000000-0000-0001-0000-000000000001"}
---- status 6
script line 1: BadId

== a shift with the highest bit in its upper half
call 0 0 0 CancelZonalShift {"zonalShiftId":"80000000-0000-0000-0000-000000000001"}
---- status 6
script line 1: BadId

== a shift with a bit in its upper half and no hyphens
call 0 0 0 CancelZonalShift {"zonalShiftId":"00000000000000010000000000000001"}
---- status 6
script line 1: BadId

== a shift with some hyphens only
call 0 0 0 CancelZonalShift {"zonalShiftId":"0000000000000000-0000-0000-000000000001"}
---- status 6
script line 1: BadId

== a shift with a hyphen at another place
call 0 0 0 CancelZonalShift {"zonalShiftId":"0000000-00000-0000-0000-000000000001"}
---- status 6
script line 1: BadId

== a shift with one digit less
call 0 0 0 CancelZonalShift {"zonalShiftId":"00000000-0000-0000-0000-00000000001"}
---- status 6
script line 1: BadId

== a shift with one digit more
call 0 0 0 CancelZonalShift {"zonalShiftId":"00000000-0000-0000-0000-0000000000001"}
---- status 6
script line 1: BadId

== a shift with a letter behind f
call 0 0 0 CancelZonalShift {"zonalShiftId":"00000000-0000-0000-0000-00000000000g"}
---- status 6
script line 1: BadId

== a shift with a blank behind it
call 0 0 0 CancelZonalShift {"zonalShiftId":"00000000-0000-0000-0000-000000000001 "}
---- status 6
script line 1: BadId

== a shift with one brace
call 0 0 0 CancelZonalShift {"zonalShiftId":"{00000000-0000-0000-0000-000000000001"}
---- status 6
script line 1: BadId

== a shift in round brackets
call 0 0 0 CancelZonalShift {"zonalShiftId":"(00000000-0000-0000-0000-000000000001)"}
---- status 6
script line 1: BadId

== a shift in braces without hyphens
call 0 0 0 CancelZonalShift {"zonalShiftId":"{00000000000000000000000000000001}"}
---- status 6
script line 1: BadId

== a shift in another namespace
call 0 0 0 CancelZonalShift {"zonalShiftId":"urn:isbn:00000000-0000-0000-0000-000000000001"}
---- status 6
script line 1: BadId

== a shift in a namespace without hyphens
call 0 0 0 CancelZonalShift {"zonalShiftId":"urn:uuid:00000000000000000000000000000001"}
---- status 6
script line 1: BadId

== a panel is no shift
call 0 0 0 CancelZonalShift {"zonalShiftId":"arn:arc:panel/0000000000000001"}
---- status 6
script line 1: BadId

== a control is no shift
call 0 0 0 CancelZonalShift {"zonalShiftId":"arn:arc:control/0000000000000001"}
---- status 6
script line 1: BadId

== a rule is no shift
call 0 0 0 CancelZonalShift {"zonalShiftId":"arn:arc:rule/0000000000000001"}
---- status 6
script line 1: BadId

== a resource is no shift
call 0 0 0 CancelZonalShift {"zonalShiftId":"arn:arc:resource/0000000000000001"}
---- status 6
script line 1: BadId

== each kind is numbered by itself from 1 on
new 0 0 0 a
assert 0 0 0 r AND 0 1
call 0 0 0 RegisterManagedResource {"name":"r","availabilityZones":["z"]}
call 0 0 0 StartZonalShift {"resourceIdentifier":"arn:arc:resource/0000000000000001","awayFrom":"z","expiresIn":"1m","comment":""}
call 0 0 0 CreateControlPanel {"ControlPanelName":"p"}
new 0 0 0 b
----
slot 0 token 1 200 {"RoutingControl":{"ControlPanelArn":"arn:arc:panel/0000000000000001","Name":"a","RoutingControlArn":"arn:arc:control/0000000000000001"}}
slot 1 token 2 200 {"SafetyRuleArn":"arn:arc:rule/0000000000000001"}
slot 2 token 3 200 {"resourceIdentifier":"arn:arc:resource/0000000000000001"}
slot 3 token 4 200 {"awayFrom":"z","comment":"","expiryTime":60000,"resourceIdentifier":"arn:arc:resource/0000000000000001","startTime":0,"status":"ACTIVE","zonalShiftId":"00000000-0000-0000-0000-000000000001"}
slot 4 token 5 200 {"ControlPanel":{"ControlPanelArn":"arn:arc:panel/0000000000000002","Name":"p"}}
slot 5 token 6 200 {"RoutingControl":{"ControlPanelArn":"arn:arc:panel/0000000000000001","Name":"b","RoutingControlArn":"arn:arc:control/0000000000000002"}}
