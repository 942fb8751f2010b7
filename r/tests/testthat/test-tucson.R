# Tucson files and dplR's shape: class rwl, years as row names, a column a series, millimetres, 0 absent, NA outside.

test_that("the oak's file has dplR's shape", {
  rwl <- read_example("oak.rwl")
  expect_identical(class(rwl), c("rwl", "data.frame"))
  expect_identical(names(rwl), c("ROOF04E", "ROOF04L"))
  expect_identical(rownames(rwl), as.character(1703:1802))
  expect_identical(rwl["1703", "ROOF04E"], 1.415)
  expect_identical(rwl["1703", "ROOF04L"], 0.42) # closed by 999: hundredths
  expect_identical(unlist(rwl["1751", ], use.names = FALSE), c(0, 0)) # absent in both
  expect_false(anyNA(rwl))
})

test_that("years outside a series are NA, and blanks within a name stay", {
  rwl <- read_example("pine.rwl")
  expect_identical(names(rwl), c("WAL01A", "WAL01B", "WAL 02"))
  expect_identical(range(as.integer(rownames(rwl))), c(1897L, 1940L))
  expect_identical(rownames(rwl)[!is.na(rwl$WAL01B)], as.character(1903:1931))
  expect_identical(rwl["1911", "WAL01B"], 0)
  expect_identical(which(is.na(rwl[["WAL 02"]])), which(as.integer(rownames(rwl)) < 1920))
})

test_that("what is read is written in thousandths, and reads back the same", {
  for (name in c("oak.rwl", "pine.rwl", "few.rwl")) {
    rwl <- read_example(name)
    text <- write_tucson(rwl)
    expect_identical(length(text), as.integer(file.size(example_file(name))))
    expect_identical(read_tucson(text), rwl)
  }
  expect_identical(write_tucson(read_example("few.rwl")), readBin(example_file("few.rwl"), "raw", 1000))
})

test_that("files, connections and bytes are read alike", {
  path <- example_file("few.rwl")
  bytes <- readBin(path, "raw", 1e4)
  expected <- read_tucson(path)
  expect_identical(read_tucson(bytes), expected)
  held <- rawConnection(bytes)
  expect_identical(read_tucson(held), expected)
  close(held)
  expect_identical(read_tucson(file(path)), expected)
  open <- file(path, "rb")
  expect_identical(read_tucson(open), expected)
  expect_true(isOpen(open))
  close(open)
})

test_that("a file without a series is refused, and a series without widths is a column of NA", {
  for (text in c("", "\n \n", "\x1a")) {
    expect_match(conditionMessage(caught(suppressMessages(read_tucson(charToRaw(text))))), "the file holds no series")
  }
  expect_s3_class(caught(read_tucson(raw(), strict = TRUE)), "walzhik_unreadable")
  rwl <- read_tucson(charToRaw("A       1900 -9999\nB       1950     7 -9999\n"), strict = TRUE)
  expect_identical(rwl, structure(data.frame(A = NA_real_, B = 0.007, row.names = "1950"), class = c("rwl", "data.frame")))
  expect_identical(dim(read_tucson(charToRaw("A       1900 -9999\n"), strict = TRUE)), c(0L, 1L))
})

# What a laboratory's file is read as, and what is told of it, by numbers of notes and lines.
as_told <- function(text, ...) {
  told <- NULL
  rwl <- withCallingHandlers(read_tucson(if (is.raw(text)) text else charToRaw(text), ...), walzhik_notes = function(notes) {
    told <<- notes$notes
    tryInvokeRestart("muffleMessage")
  })
  list(rwl = rwl, number = told$number, line = told$line)
}

test_that("laboratories' files are read as they are shown, or refused", {
  refused <- function(text, number, place, ...) expect_refused(read_tucson(charToRaw(text), ...), number, place)
  refused("OAK01\t1895   812\t   655 -9999\n", 11, 1)
  refused("OAK     1895    81    79    65   999\nOAK     1910   820   700 -9999\n", 12, 2)
  data <- "OAK 01 1 850    12    13    14   999 A\n"
  refused(paste0(data, sub(" 1 ", " 2 ", data), sub(" 1 ", " 3 ", data)), 11, 1)
  refused("OAK01A\t12\t1920\t128\t130\t-9999\n", 11, 1)
  for (line in c("ABC01  11895", "ABC012-11895", "ABC01  \u22121012")) refused(paste0(line, "   812 -9999\n"), 23, 1)
  refused("FJ -725 1483 -9999\n", 23, 1)
  ten <- paste0("OAK     1890", strrep("   812", 10))
  for (behind in c("   709", " BC")) refused(paste0(ten, behind, "\nOAK     1900   700 -9999\n"), 11, 1)

  found <- as_told("OAK     1895    81    79    65    90   999\nOAK     1900   812   702 -9999\n")
  expect_identical(c(found$number, found$line), c(13, 1))
  expect_identical(found$rwl["1899", "OAK"], 0.999)
  found <- as_told("OAK     1890   700   701     0     0   999\n")
  expect_identical(c(found$number, found$line), c(12, 1))
  found <- as_told("A       1890   700 -9999\nB       1890    70   999\nC       1890   700 -9999\n")
  expect_identical(c(found$number, found$line), c(14, 2))
  found <- as_told(paste0(ten, " CO523\nOAK     1900   700 -9999\n"))
  expect_identical(c(found$number, found$line), c(7, 1))
  expect_identical(rownames(found$rwl), as.character(1890:1900))
})

test_that("a good file with tabs, line ends of Windows and a header reads as the file itself", {
  plain <- readLines(example_file("pine.rwl"))
  tabbed <- sub("^(WAL01[AB])  ", "\\1\t", plain)
  expect_false(identical(tabbed, plain))
  header <- sprintf("WAL 01 %d Somewhere", 1:3)
  text <- charToRaw(paste0(c(header, tabbed), "\r\n", collapse = ""))
  found <- as_told(text)
  expect_identical(found$rwl, read_example("pine.rwl"))
  expect_true(all(c(3, 4, 9) %in% found$number))
})

test_that("header, unit and strict say how a file is read", {
  text <- "two lines\nof another program\nA       1890   700  -999\n"
  expect_refused(read_tucson(charToRaw(text)), 11, 1)
  expect_match(expect_refused(read_tucson(charToRaw(text), header = 2), 24, 3)$remedy, "(unit)", fixed = TRUE)
  expect_identical(as_told(text, header = 2, unit = "hundredths")$rwl$A, 7)
  expect_identical(as_told(text, header = 2, unit = "thousandths")[-1], list(number = c(9, 11), line = c(1, 3)))
  expect_refused(read_tucson(charToRaw(text), header = 3, unit = "hundredths"), 26, 3)
  for (header in c(4, 100, -1)) expect_refused(read_tucson(charToRaw(text), header = header), 26, 0)
  strict <- charToRaw("ABC01  11895   812 -9999\n")
  expect_identical(names(read_tucson(strict, strict = TRUE)), "ABC01  1")
  expect_refused(read_tucson(c(strict, charToRaw("\n")), strict = TRUE), 11, 2)
  expect_usage(read_tucson(strict, strict = TRUE, header = 1), "header and unit go without it")
  expect_usage(read_tucson(strict, strict = TRUE, unit = "hundredths"), "header and unit go without it")
  expect_usage(read_tucson(strict, strict = NA), "strict is TRUE or FALSE")
  expect_usage(read_tucson(strict, unit = "mm"), "unit is \"hundredths\" or \"thousandths\"")
  expect_usage(read_tucson(strict, header = 1.5), "header[1] is 1.5")
  expect_usage(read_tucson(strict, header = 1:2), "header is one number")
})

test_that("notes are one message, which has a class, a call and a table, and can be left out", {
  text <- charToRaw("A       1890     0   700 -9999  \r\n\r\nB       1890   700 -9999\r\n")
  notes <- tryCatch(read_tucson(text), walzhik_notes = identity)
  expect_s3_class(notes, c("walzhik_notes", "message", "condition"), exact = TRUE)
  expect_identical(notes$call, quote(read_tucson(text)))
  expect_identical(notes$notes[c("line", "last", "number")],
                   data.frame(line = c(1, 1, 2, 1), last = c(1, 1, 2, 3), number = c(5, 12, 6, 3))[c(1, 2, 4, 3), ], ignore_attr = TRUE)
  expect_match(conditionMessage(notes), "Lines 1 to 3: the line end of Windows became a plain one.\n", fixed = TRUE)
  expect_silent(rwl <- suppressMessages(read_tucson(text)))
  expect_message(read_tucson(text), class = "walzhik_notes")
  expect_silent(read_tucson(write_tucson(rwl["1891", "A", drop = FALSE])))
})

test_that("years before 0 are read and written", {
  text <- charToRaw("A         -5     1     2     3     4     5\nA          0     6 -9999\n")
  rwl <- read_tucson(text)
  expect_identical(rownames(rwl), as.character(-5:0))
  expect_identical(write_tucson(rwl), text)
})

test_that("a text longer than a chunk is read whole", {
  lines <- sprintf("S%05d  1900%s -9999\n", 1:20000, strrep("  1234", 9))
  text <- charToRaw(paste(lines, collapse = ""))
  expect_gt(length(text), chunk_bytes)
  path <- tempfile()
  writeBin(text, path)
  rwl <- read_tucson(path)
  expect_identical(dim(rwl), c(9L, 20000L))
  expect_true(all(unlist(rwl) == 1.234))
  expect_true(identical(write_tucson(rwl), text)) # a difference this long is not shown
})

test_that("names that a data frame can't hold apart are refused", {
  expect_usage(read_tucson(charToRaw("A       1900     1 -9999\nB       1900     1 -9999\nA       1900     1 -9999\n")), "Two series have the name A")
})

test_that("files that can't be read are told", {
  expect_usage(read_tucson("no such file.rwl"), "There is no file no such file.rwl")
  expect_usage(read_tucson(tempdir()), "There is no file")
  expect_usage(read_tucson(NULL), "file is the name of a file")
  lines <- textConnection("A       1900 -9999")
  expect_usage(read_tucson(lines), "The connection can't be read")
  close(lines)
  expect_usage(read_tucson(NA_character_), "file is the name of a file")
  expect_usage(read_tucson(c("a", "b")), "file is the name of a file")
})

test_that("a file is written whole or not at all", {
  folder <- tempfile()
  dir.create(folder)
  path <- file.path(folder, "out.rwl")
  rwl <- read_example("oak.rwl")
  expect_identical(write_tucson(rwl, path), path)
  expect_identical(read_tucson(path), rwl)
  before <- readBin(path, "raw", 1e4)
  expect_refused(write_tucson(transform(rwl, ROOF04E = -1), path), 11, 0)
  expect_identical(readBin(path, "raw", 1e4), before)
  expect_usage(write_tucson(rwl, file.path(folder, "no", "out.rwl")), "There is no folder")
  expect_usage(write_tucson(rwl, folder), "is a folder")
  expect_identical(list.files(folder, all.files = TRUE, no.. = TRUE), "out.rwl")
})

test_that("no file takes the place of a device", {
  link <- tempfile()
  file.symlink("/dev/null", link) # were it replaced, the device would stay
  on.exit(unlink(link))
  expect_usage(write_tucson(read_example("few.rwl"), link), "is no plain file")
  expect_identical(Sys.readlink(link), "/dev/null")
})

test_that("a symbolic link stays, and what it leads to is written with its mode", {
  folder <- tempfile()
  dir.create(folder)
  file.create(file.path(folder, "there"))
  Sys.chmod(file.path(folder, "there"), "640", use_umask = FALSE)
  file.symlink(c("there", "not_there", "b", "a"), file.path(folder, c("link", "new", "a", "b")))
  for (name in c("link", "new")) {
    expect_silent(write_tucson(read_example("few.rwl"), file.path(folder, name)))
    expect_identical(Sys.readlink(file.path(folder, name)), c(link = "there", new = "not_there")[[name]])
    expect_gt(file.size(file.path(folder, name)), 0)
  }
  expect_identical(format(file.mode(file.path(folder, "there"))), "640")
  expect_usage(write_tucson(read_example("few.rwl"), file.path(folder, "a")), "leads nowhere")
  expect_setequal(list.files(folder, all.files = TRUE, no.. = TRUE), c("there", "not_there", "link", "new", "a", "b"))
})

test_that("a full device is told, and nothing is left", {
  skip_if_not(file.exists("/dev/full"))
  folder <- tempfile()
  dir.create(folder)
  full <- file.path(folder, ".temporary")
  file.symlink("/dev/full", full)
  expect_usage(write_whole(charToRaw("text"), file.path(folder, "out"), full), "can't be written")
  expect_identical(list.files(folder, all.files = TRUE, no.. = TRUE), character())
})
