declare variable $d as document-node() external; $d/catalogue/book/title
