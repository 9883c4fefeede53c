(: Thirty-one calls, each of which puts thirty-two elements round what it is given, round nine elements: 1,001 nodes. :)
declare function local:wrap($n as xs:integer, $e as element()) as element() {
  if ($n = 0) then $e
  else local:wrap($n - 1,
    <a><a><a><a><a><a><a><a><a><a><a><a><a><a><a><a><a><a><a><a><a><a><a><a><a><a><a><a><a><a><a><a>{$e}</a></a></a></a></a></a></a></a></a></a></a></a></a></a></a></a></a></a></a></a></a></a></a></a></a></a></a></a></a></a></a></a>)
};
local:wrap(31, <a><a><a><a><a><a><a><a><a/></a></a></a></a></a></a></a></a>)
