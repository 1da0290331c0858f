// Stands in for the absent readers of each kind of schema.
