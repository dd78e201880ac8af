(match subsets (u w) s (by))
