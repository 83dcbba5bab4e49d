"""The questions of people, each of which asks the program several times: plan, what-if, losses, why."""
