"""What is under the commands of tools/

One subject to a module. Nothing here is proved, and nothing executes a program: what a run did is the program's answer.
"""
