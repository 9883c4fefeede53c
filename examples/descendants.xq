import schema "" at "examples/parts.xsd";
declare variable $d as document-node(schema-element(part)) external;
$d//part
