import schema "" at "/dev/stdin"; 1
