"""The companion of `elements`: the checker as people use it.

It decides nothing. Each verdict, and each line that is called ready, comes from a run of `elements`.
"""
