"""Many runs of one command, for `each`:

  instances    which files and parameters each run has: from files, folders and lists
  workers      runs in processes of their own, several at a time
  logs         a line of JSON for each run, by which a run that is there is not done again
  circuits     a file for the circuit of each run
  joining      the table of what logs hold
"""
