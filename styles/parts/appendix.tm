<assign|appendix|<macro|x|<assign|appendix-nr|<plus|<value|appendix-nr>|1>><assign|subsection-nr|0>\
    <assign|subsubsection-nr|0><assign|:section|<:to-Letter|<value|appendix-nr>>>\
    <assign|the-section|<value|:section>><with|:head|Appendix <value|the-section>. |<eval|<value|:heading>>>>>
