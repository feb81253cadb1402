"""What is promised: calls with their clauses, the wrong bodies that clauses refuse, and where pages
speak of them."""
