"""The words of the options of `drc enc` and `drc recode`, each with its number in drc.h, for the tests."""

METHODS = {"seq": 1, "eb": 2, "valence": 3}
INDEXES = {"plain": 1, "packed": 2}
PREDICTIONS = {"none": 1, "diff": 2, "para": 3, "multi": 4}
SHAPE = {"shape": 5}  # the prediction that profile 3 has alone
WALKS = {"depth": 1, "degree": 2}
PROFILES = {"2": 2, "3": 3}
OPTIONS = {"--method": METHODS, "--index": INDEXES, "--predict": {**PREDICTIONS, **SHAPE}, "--walk": WALKS}

ON_SURFACES = [it for it in METHODS if it != "seq"]
ON_POINTS = ["none", "diff"]  # the predictions that the sequential method takes
