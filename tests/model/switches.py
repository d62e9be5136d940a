"""What the program does today. Each switch is turned once the program does more; the model is tested in both positions."""

# Whether a commit repairs the record that is kept. Until then each commit runs anew.
REPAIRS = True
# Whether a script has the commands `hold` and `held`. Without them they are no commands.
HOLDS = True
