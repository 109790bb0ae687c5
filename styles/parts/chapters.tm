<assign|chapter-nr|0>

# A chapter whose number, or letter, is :number: what is counted in it begins anew
<assign|:chapter|<quote|<assign|the-section|<value|:number>><assign|:prefix|<merge|<value|:number>|.>>\
    <assign|section-nr|0><assign|subsection-nr|0><assign|subsubsection-nr|0><assign|theorem-nr|0>\
    <assign|exercise-nr|0><assign|equation-nr|0><assign|figure-nr|0><assign|table-nr|0><eval|<value|:heading>>>>
<assign|chapter|<macro|x|<assign|chapter-nr|<plus|<value|chapter-nr>|1>>\
    <with|:number|<value|chapter-nr>|:head|<concat|Chapter <value|chapter-nr>|<next-line>>|<eval|<value|:chapter>>>>>
<assign|appendix|<macro|x|<assign|appendix-nr|<plus|<value|appendix-nr>|1>>\
    <with|:number|<:to-Letter|<value|appendix-nr>>|<with|:head|<concat|Appendix <value|:number>|<next-line>>|\
    <eval|<value|:chapter>>>>>>
