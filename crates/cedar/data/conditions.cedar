context.labels.contains(unknown("trial")) && context.mfa
// A line without a condition has a blank answer.
context.attempts < "3"
principal in Group::"friends"
context.atempts == 2
ip("10.0.0.1").isIPv4()
