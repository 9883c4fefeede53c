import schema "" at "examples/items.xsd";
declare variable $d as document-node(schema-element(item)) external;
$d/item/*
