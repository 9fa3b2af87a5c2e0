"""The depot: what depot/run, controls, recording and picture are made of."""
