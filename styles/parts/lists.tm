<assign|item-nr|0>
<assign|item-kind|bullet-3>

# Of each kind of list how the mark of an item is made. It is evaluated at each item.
<assign|:mark-bullet-1|<quote|\<#2022\> >>
<assign|:mark-bullet-2|<quote|\<#25E6\> >>
<assign|:mark-bullet-3|<quote|- >>
<assign|:mark-minus|<quote|- >>
<assign|:mark-arrow|<quote|\<rightarrow\> >>
<assign|:mark-number|<quote|<merge|<value|item-nr>|. >>>
<assign|:mark-alpha|<quote|<merge|<:to-letter|<value|item-nr>>|) >>>
<assign|:mark-Alpha|<quote|<merge|<:to-Letter|<value|item-nr>>|) >>>
<assign|:mark-roman|<quote|<merge|<:to-roman|<value|item-nr>>|. >>>
<assign|:mark-Roman|<quote|<merge|<:to-Roman|<value|item-nr>>|. >>>

# A list is a with round its argument and nothing else, so that an edit of an item reaches that item
<assign|itemize|<macro|x|<with|par-left|<plus|<value|par-left>|4spc>|par-first|0mcell|item-nr|0|item-kind|\
    <case|<equal|<value|item-kind>|bullet-1>|bullet-2|<equal|<value|item-kind>|bullet-2>|bullet-3|bullet-1>|<arg|x>>>>
<assign|enumerate|<macro|x|<with|par-left|<plus|<value|par-left>|4spc>|par-first|0mcell|item-nr|0|item-kind|\
    <case|<equal|<value|item-kind>|number>|alpha|<equal|<value|item-kind>|alpha>|roman|number>|<arg|x>>>>
<assign|itemize-dot|<macro|x|<with|par-left|<plus|<value|par-left>|4spc>|\
    par-first|0mcell|item-nr|0|item-kind|bullet-1|<arg|x>>>>
<assign|itemize-minus|<macro|x|<with|par-left|<plus|<value|par-left>|4spc>|\
    par-first|0mcell|item-nr|0|item-kind|minus|<arg|x>>>>
<assign|itemize-arrow|<macro|x|<with|par-left|<plus|<value|par-left>|4spc>|\
    par-first|0mcell|item-nr|0|item-kind|arrow|<arg|x>>>>
<assign|enumerate-numeric|<macro|x|<with|par-left|<plus|<value|par-left>|4spc>|\
    par-first|0mcell|item-nr|0|item-kind|number|<arg|x>>>>
<assign|enumerate-roman|<macro|x|<with|par-left|<plus|<value|par-left>|4spc>|\
    par-first|0mcell|item-nr|0|item-kind|roman|<arg|x>>>>
<assign|enumerate-Roman|<macro|x|<with|par-left|<plus|<value|par-left>|4spc>|\
    par-first|0mcell|item-nr|0|item-kind|Roman|<arg|x>>>>
<assign|enumerate-alpha|<macro|x|<with|par-left|<plus|<value|par-left>|4spc>|\
    par-first|0mcell|item-nr|0|item-kind|alpha|<arg|x>>>>
<assign|enumerate-Alpha|<macro|x|<with|par-left|<plus|<value|par-left>|4spc>|\
    par-first|0mcell|item-nr|0|item-kind|Alpha|<arg|x>>>>
<assign|description|<macro|x|<with|par-left|<plus|<value|par-left>|4spc>|\
    par-first|0mcell|item-nr|0|item-kind|minus|<arg|x>>>>
<assign|description-compact|<value|description>>
<assign|description-aligned|<value|description>>
<assign|description-dash|<value|description>>
<assign|description-long|<value|description>>
<assign|description-paragraphs|<value|description>>

# The mark hangs out by its own length
<assign|item|<macro|<assign|item-nr|<plus|<value|item-nr>|1>><assign|the-label|<value|item-nr>>\
    <with|:mark|<eval|<value|<merge|:mark-|<value|item-kind>>>>|\
    <with|par-first|<times|-1spc|<length|<value|:mark>>>|font-shape|right|<value|:mark>>>>>
<assign|item*|<macro|x|<with|par-first|-4spc|font-series|bold|font-shape|right|<eval|<value|?x>> >>>
