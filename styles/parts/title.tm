# Each part is the lines that it shows, or nothing
<assign|doc-data|<xmacro|x|<map-args|:each|concat|x><next-line>>>
<assign|make-title|<value|doc-data>>
<assign|title-data|<value|doc-data>>
<assign|doc-title|<macro|x|<document|<with|par-mode|center|par-first|0mcell|font-series|bold|<eval|<value|?x>>>>>>
<assign|doc-subtitle|<macro|x|<document|<with|par-mode|center|par-first|0mcell|font-shape|italic|<eval|<value|?x>>>>>>
<assign|doc-author|<xmacro|x|<map-args|:each|concat|x>>>
<assign|author-data|<xmacro|x|<document|><map-args|:each|concat|x>>>
<assign|author-name|<macro|x|<document|<with|par-mode|center|par-first|0mcell|<name|<eval|<value|?x>>>>>>>
<assign|author-affiliation|<value|doc-subtitle>>
<assign|author-address|<value|doc-subtitle>>
<assign|author-misc|<value|doc-subtitle>>
<assign|author-email|<macro|x|<document|<with|par-mode|center|par-first|0mcell|font-family|tt|<eval|<value|?x>>>>>>
<assign|author-homepage|<value|author-email>>
<assign|author-note|<macro|x|<document|<with|par-mode|center|par-first|0mcell|<eval|<value|?x>>>>>>
<assign|doc-date|<value|author-note>>
<assign|doc-note|<value|author-note>>
<assign|doc-misc|<value|author-note>>
<assign|title|<value|doc-title>>
<assign|author|<value|author-name>>
<assign|address|<value|doc-subtitle>>
<assign|title-date|<value|doc-date>>
<assign|date|<macro|x|<eval|<value|?x>>>>
<assign|doc-running-title|<macro|x|>>
<assign|doc-running-author|<value|doc-running-title>>
<assign|doc-inactive|<value|doc-running-title>>
<assign|doc-keywords-hidden|<value|doc-running-title>>
<assign|abstract-data|<xmacro|x|<document|<with|par-mode|center|par-first|0mcell|font-series|bold|Abstract>>\
    <map-args|:each|concat|x>>>
<assign|abstract|<macro|x|<with|par-left|<plus|<value|par-left>|4spc>|par-right|\
    <plus|<value|par-right>|4spc>|par-first|0mcell|<arg|x>>>>

# A line of the abstract: :name in bold, and the arguments
<assign|:keywords|<quote|<document|<with|par-left|<plus|<value|par-left>|4spc>|par-right|\
    <plus|<value|par-right>|4spc>|par-first|0mcell|<strong|<value|:name>: ><map-args|:listed|concat|x>>>>>
<assign|abstract-keywords|<xmacro|x|<with|:name|Keywords|<eval|<value|:keywords>>>>>
<assign|abstract-msc|<xmacro|x|<with|:name|A.M.S. subject classification|<eval|<value|:keywords>>>>>
<assign|abstract-acm|<xmacro|x|<with|:name|ACM subject classification|<eval|<value|:keywords>>>>>
<assign|abstract-pacs|<xmacro|x|<with|:name|PACS subject classification|<eval|<value|:keywords>>>>>
<assign|abstract-arxiv|<xmacro|x|<with|:name|arXiv subject classification|<eval|<value|:keywords>>>>>
