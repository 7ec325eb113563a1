"""What documents cite, held to what is there: files, items, clauses, options, links, counts and printed commands."""
