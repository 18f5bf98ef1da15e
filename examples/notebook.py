#!/usr/bin/env python3
"""Writes notebook.npy, a table as a notebook saves it, and notebook-answer.npy, the same with one spare of the second kind.

Needs NumPy, which the example does not."""
import os
import numpy as np

here = os.path.dirname(os.path.abspath(__file__))
table = np.array([[0.5, 0.125, 0.125], [0.125, 0.0625, 0.0625]])
spared = table[:, 1:].copy()
spared[:, 0] += table[:, 0]
np.save(os.path.join(here, "notebook.npy"), table)
np.save(os.path.join(here, "notebook-answer.npy"), spared)
print(spared)
