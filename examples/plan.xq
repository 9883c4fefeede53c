for $a in (1, 2) for $b in (2, 3) where $a = $b return ($a, $b)
