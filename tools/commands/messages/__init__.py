"""What is wrong with a policy, a script, a report or the words of the command, told in words, with the place and the cure. The program alone decides; this explains what it said."""
