"""What several references need of the papers: 01's greatest side, as 02's R-7 has it."""

GREATEST_SIDE = 1024  # "Sides go to 1,024, in the library, the text and refusals 1, 22 and 23."
