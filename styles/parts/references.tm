<assign|cite|<xmacro|x|[<map-args|:listed|concat|x>]>>
<assign|cite-raw|<xmacro|x|<map-args|:listed|concat|x>>>
<assign|cite-detail|<macro|x|y|[<eval|<value|?x>>, <eval|<value|?y>>]>>
<assign|nocite|<value|index>>
<assign|bibliography|<macro|y|z|file|x|<concat|<document|<section*|References>>|<eval|<value|?x>>>>>
<assign|bibliography*|<macro|z|style|file|y|x|<concat|<document|<section*|<eval|<value|?y>>>>|<eval|<value|?x>>>>>
<assign|bib-list|<macro|y|x|<with|par-left|<plus|<value|par-left>|4spc>|par-first|0mcell|<arg|x>>>>

# The mark hangs out by its own length, where it is a text
<assign|bibitem*|<macro|x|<assign|the-label|<eval|<value|?x>>>\
    <if|<equal|<get-arity|<value|the-label>>|0>|<with|:mark|<merge|[|<value|the-label>|] >|\
    <with|par-first|<times|-1spc|<length|<value|:mark>>>|<value|:mark>>>|\
    <with|par-first|-4spc|[<value|the-label>] >>>>
<assign|bibitem|<value|bibitem*>>
<assign|table-of-contents|<macro|y|x|<concat|<document|<section*|Contents>>|<eval|<value|?x>>>>>
<assign|the-index|<macro|y|x|<concat|<document|<section*|Index>>|<eval|<value|?x>>>>>
<assign|the-glossary|<macro|y|x|<concat|<document|<section*|Glossary>>|<eval|<value|?x>>>>>
<assign|list-of-figures|<macro|y|x|<concat|<document|<section*|List of figures>>|<eval|<value|?x>>>>>
<assign|list-of-tables|<macro|y|x|<concat|<document|<section*|List of tables>>|<eval|<value|?x>>>>>
