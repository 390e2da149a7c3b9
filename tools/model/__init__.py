"""A model of what each line of the cases answers, written from the definitions over rows."""
