"""The requests of document 02 that have landed, in their order, as --with takes them: what the proved calls answer by, and so the model
where no other set is named."""
LANDED = "A5,A1,A3,A10,A2,A4,A7,A8,A9,A6,A13"
