"""Folders of scores, played over all processors or by a cluster: the verb `batch`."""
