# sed -z -E -f packaging/inner_links.sed: of a link that leads out of docs and examples only the words stay, because a release has these alone.
s|\]\(\.\./examples/|](@examples/|g
s|!?\[([^]]*)\]\(\.\./[^)]*\)|\1|g
s|\]\(@examples/|](../examples/|g
