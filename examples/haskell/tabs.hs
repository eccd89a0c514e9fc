f x = case x of
	1 -> a
        2 -> b
