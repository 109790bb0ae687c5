<assign|footnote-nr|0>

# The argument is asked for here, and not by ?x, as em is used most
<assign|em|<macro|x|<with|font-shape|<if|<equal|<value|font-shape>|italic>|right|italic>|\
    <if|<equal|<get-arity|<map-args|:one|merge|x>>|0>|<arg|x>|>>>>
<assign|emph|<value|em>>
<assign|strong|<macro|x|<with|font-series|bold|<eval|<value|?x>>>>>
<assign|dfn|<macro|x|<with|font-shape|italic|<eval|<value|?x>>>>>
<assign|cite*|<value|dfn>>
<assign|name|<macro|x|<with|font-shape|small-caps|<eval|<value|?x>>>>>
<assign|person|<value|name>>
<assign|sc|<value|name>>
<assign|samp|<macro|x|<with|font-family|tt|<eval|<value|?x>>>>>
<assign|tt|<value|samp>>
<assign|code*|<value|samp>>
<assign|kbd|<value|samp>>
<assign|key|<value|samp>>
<assign|var|<value|samp>>
<assign|cpp|<value|samp>>
<assign|scm|<value|samp>>
<assign|shell|<value|samp>>
<assign|mmx|<value|samp>>
<assign|python|<value|samp>>
<assign|src-arg|<value|samp>>
<assign|src-macro|<value|samp>>
<assign|src-var|<value|samp>>

# What a terminal can only show as it is
<assign|abbr|<macro|x|<eval|<value|?x>>>>
<assign|acronym|<value|abbr>>
<assign|localize|<value|abbr>>
<assign|underline|<value|abbr>>
<assign|overline|<value|abbr>>
<assign|strike-through|<value|abbr>>
<assign|text|<value|abbr>>
<assign|op|<value|abbr>>
<assign|rigid|<value|abbr>>
<assign|mbox|<value|abbr>>
<assign|smash|<value|abbr>>
<assign|resize|<value|abbr>>
<assign|move|<value|abbr>>
<assign|shift|<value|abbr>>
<assign|clipped|<value|abbr>>
<assign|scale|<value|abbr>>
<assign|with-link|<value|abbr>>
<assign|repeat-body|<value|abbr>>
<assign|active|<value|abbr>>
<assign|inactive|<value|abbr>>
<assign|protected|<value|abbr>>
<assign|really-tiny|<value|abbr>>
<assign|tiny|<value|abbr>>
<assign|very-small|<value|abbr>>
<assign|small|<value|abbr>>
<assign|smaller|<value|abbr>>
<assign|normal-size|<value|abbr>>
<assign|normal|<value|abbr>>
<assign|large|<value|abbr>>
<assign|larger|<value|abbr>>
<assign|very-large|<value|abbr>>
<assign|huge|<value|abbr>>
<assign|really-huge|<value|abbr>>
<assign|show-preamble|<value|abbr>>
<assign|hide-preamble|<macro|x|<with|:hidden|<eval|<value|?x>>|>>>

# Each of these is a with round its argument and nothing else
<assign|quotation|<macro|x|<with|par-left|<plus|<value|par-left>|4spc>|par-right|\
    <plus|<value|par-right>|4spc>|par-first|0mcell|<arg|x>>>>
<assign|quote-env|<value|quotation>>
<assign|verse|<value|quotation>>
<assign|jump-in|<value|quotation>>
<assign|indent-both|<value|quotation>>
<assign|center|<macro|x|<with|par-mode|center|par-first|0mcell|<arg|x>>>>
<assign|centered|<value|center>>
<assign|padded-center|<value|center>>
<assign|left-aligned|<macro|x|<with|par-mode|left|par-first|0mcell|<arg|x>>>>
<assign|left-flush|<value|left-aligned>>
<assign|right-aligned|<macro|x|<with|par-mode|right|par-first|0mcell|<arg|x>>>>
<assign|right-flush|<value|right-aligned>>
<assign|flushright|<value|right-aligned>>
<assign|indent|<macro|x|<with|par-left|<plus|<value|par-left>|4spc>|<arg|x>>>>
<assign|indent-left|<value|indent>>
<assign|indent-right|<macro|x|<with|par-right|<plus|<value|par-right>|4spc>|<arg|x>>>>
<assign|framed|<macro|x|<with|par-left|<plus|<value|par-left>|2spc>|par-right|\
    <plus|<value|par-right>|2spc>|par-first|0mcell|<arg|x>>>>
<assign|ornamented|<value|framed>>
<assign|shadowed|<value|framed>>
<assign|padded|<macro|x|<with|par-first|0mcell|<arg|x>>>>
<assign|padded*|<value|padded>>
<assign|padded-normal|<value|padded>>
<assign|compressed|<value|padded>>
<assign|narrow|<value|framed>>

# The gap before each line keeps the spaces at its start
<assign|:line|<macro|x|i|<document|<concat|<hspace|1spc>|<arg|x>>>>>
<assign|verbatim|<macro|x|<with|font-family|tt|<if|<equal|<map-args|:one|merge|x>|>|<eval|<value|?x>>|\
    <if|<equal|<get-label|<quote-arg|x>>|document>|<with|par-mode|left|par-left|\
    <plus|<value|par-left>|1spc>|par-first|0mcell|<map-args|:line|concat|x>>|<eval|<value|?x>>>>>>>
<assign|code|<value|verbatim>>
<assign|verbatim-code|<value|verbatim>>
<assign|cpp-code|<value|verbatim>>
<assign|scm-code|<value|verbatim>>
<assign|shell-code|<value|verbatim>>
<assign|python-code|<value|verbatim>>
<assign|mmx-code|<value|verbatim>>
<assign|scilab-code|<value|verbatim>>
<assign|java-code|<value|verbatim>>
<assign|scala-code|<value|verbatim>>
<assign|fortran-code|<value|verbatim>>
<assign|program|<value|verbatim>>
<assign|pseudo-code|<value|verbatim>>
<assign|hlink|<macro|x|y|<with|color|blue|<eval|<value|?x>>>\
    <if|<or|<equal|<quote-arg|x>|<quote-arg|y>>|<equal|<quote-arg|y>|<error|missing|y>>>|| [<arg|y>]>>>
<assign|slink|<macro|x|<with|color|blue|<eval|<value|?x>>>>>
<assign|href|<value|slink>>
<assign|footnote|<macro|x|<assign|footnote-nr|<plus|<value|footnote-nr>|1>><assign|the-label|<value|footnote-nr>>\
    <with|font-shape|right|font-series|medium| [<value|footnote-nr>: <eval|<value|:flat-x>>]>>>
<assign|marginal-note|<macro|y|z|x|<with|font-series|medium| [<eval|<value|:flat-x>>]>>>
<assign|todo|<macro|x|<with|color|red|[<eval|<value|?x>>]>>>
<assign|TeXmacs|<macro|TeXmacs>>
<assign|TeX|<macro|TeX>>
<assign|LaTeX|<macro|LaTeX>>
<assign|emdash|<macro|\<#2014\>>>
<assign|nbsp|<macro|\<nbsp\>>>
<assign|newblock|<macro| >>

# A gap where the argument is a length, else a space
<assign|space|<macro|x|<if|<equal|<get-arity|<plus|0spc|<arg|x>>>|0>|<hspace|<arg|x>>| >>>
<assign|htab|<macro|x|<hspace|4spc>>>
<assign|new-line|<macro|<next-line>>>
<assign|line-break-here|<value|new-line>>
<assign|line-break|<macro|\<#200B\>>>
<assign|page-break|<macro|<new-page>>>

# A paragraph begins as its first thing says: here a gap of no cells
<assign|no-indent|<macro|<with|par-first|0mcell|<hspace|0spc>>>>
<assign|no-indent*|<value|no-indent>>
<assign|yes-indent|<macro|<with|par-first|1.5fn|<hspace|0spc>>>>
<assign|yes-indent*|<value|yes-indent>>
<assign|hrule|<macro|<with|par-first|0mcell|\
    \<#2500\>\<#2500\>\<#2500\>\<#2500\>\<#2500\>\<#2500\>\<#2500\>\<#2500\>\<#2500\>\<#2500\>\
    \<#2500\>\<#2500\>\<#2500\>\<#2500\>\<#2500\>\<#2500\>\<#2500\>\<#2500\>\<#2500\>\<#2500\>>>>

# What shows nothing
<assign|index|<xmacro|x|>>
<assign|subindex|<value|index>>
<assign|subsubindex|<value|index>>
<assign|glossary|<value|index>>
<assign|phantom|<value|index>>
<assign|set-prefix|<value|index>>
<assign|set-header|<value|index>>
<assign|set-footer|<value|index>>
<assign|set-this-page-header|<value|index>>
<assign|set-this-page-footer|<value|index>>
<assign|footnotemark|<value|index>>
<assign|locus-id|<value|index>>
<assign|vspace*|<value|index>>
<assign|no-break|<value|index>>
<assign|no-break-here|<value|index>>
<assign|no-page-break|<value|index>>
<assign|no-page-break*|<value|index>>
<assign|page-break*|<value|index>>
<assign|new-page*|<value|index>>
<assign|new-dpage|<value|index>>
<assign|new-dpage*|<value|index>>
<assign|datoms|<macro|y|x|<eval|<value|?x>>>>
<assign|specific|<macro|y|x|<if|<or|<equal|<quote-arg|y>|texmacs>|<equal|<quote-arg|y>|screen>>|<eval|<value|?x>>|>>>
