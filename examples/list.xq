import schema "" at "examples/parts.xsd";
declare variable $d as document-node(schema-element(part)) external;
declare function local:list($p as schema-element(part)) as element(li) {
  <li>{string($p/name), for $q in $p/part return local:list($q)}</li>
};
local:list($d/part)
