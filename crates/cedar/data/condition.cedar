// Members of a trial may see the photo, after at most three attempts.
context.labels.contains(unknown("trial"))
    && (context.attempts < "3" || context.mfa)
