"""What the programs beside it share that stand between boards and other tools: taskwarrior-sync, taskwarrior-clean, todotxt-sync and taskboard-remind."""
