<assign|part-nr|0>
<assign|section-nr|0>
<assign|subsection-nr|0>
<assign|subsubsection-nr|0>
<assign|appendix-nr|0>

# The number of the section at work, or its letter in an appendix
<assign|:section|0>

# A heading: an empty line, :head, and the title. It stands in a line, so that a label can stand beside it.
<assign|:heading|<quote|<assign|the-label|<value|the-section>>\
    <with|font-series|bold|<next-line><value|:head><eval|<value|?x>>>>>
<assign|section*|<macro|x|<with|font-series|bold|<next-line><eval|<value|?x>>>>>
<assign|subsection*|<value|section*>>
<assign|subsubsection*|<value|section*>>
<assign|appendix*|<value|section*>>
<assign|chapter*|<value|section*>>
<assign|part*|<value|section*>>
<assign|part-title|<value|section*>>
<assign|prologue|<value|section*>>
<assign|epilogue|<value|section*>>
<assign|part|<macro|x|<assign|part-nr|<plus|<value|part-nr>|1>><assign|the-section|<:to-Roman|<value|part-nr>>>\
    <with|:head|Part <value|the-section>. |<eval|<value|:heading>>>>>
<assign|section|<macro|x|<assign|section-nr|<plus|<value|section-nr>|1>><assign|subsection-nr|0>\
    <assign|subsubsection-nr|0><assign|:section|<merge|<value|:prefix>|<value|section-nr>>>\
    <assign|the-section|<value|:section>><with|:head|<value|the-section> |<eval|<value|:heading>>>>>
<assign|subsection|<macro|x|<assign|subsection-nr|<plus|<value|subsection-nr>|1>><assign|subsubsection-nr|0>\
    <assign|the-section|<merge|<value|:section>|.|<value|subsection-nr>>>\
    <with|:head|<value|the-section> |<eval|<value|:heading>>>>>
<assign|subsubsection|<macro|x|<assign|subsubsection-nr|<plus|<value|subsubsection-nr>|1>>\
    <assign|the-section|<merge|<value|:section>|.|<value|subsection-nr>|.|<value|subsubsection-nr>>>\
    <with|:head|<value|the-section> |<eval|<value|:heading>>>>>
<assign|paragraph|<macro|x|<with|par-first|0mcell|font-series|bold|<eval|<value|?x>> >>>
<assign|paragraph*|<value|paragraph>>
<assign|subparagraph|<value|paragraph>>
<assign|subparagraph*|<value|paragraph>>
