library(testthat)
library(walzhik)

test_check("walzhik")
