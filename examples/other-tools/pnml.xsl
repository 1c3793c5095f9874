<?xml version="1.0" encoding="UTF-8"?>
<!-- Turns the place/transition nets of other dialects of PNML into the profile: those of PIPE 2, WoPeD, ProM and PM4Py, and those
     with prefixes or an older namespace. What could change the net ends it with a message, and nothing is written. -->
<xsl:stylesheet version="1.0" xmlns:xsl="http://www.w3.org/1999/XSL/Transform"
    xmlns="http://www.pnml.org/version-2009/grammar/pnml">

  <xsl:template match="/">
    <pnml><xsl:apply-templates select="*/*[local-name() = 'net']"/></pnml>
  </xsl:template>

  <!-- A net, whose type has to be one of place/transition nets, without several classes of tokens. -->
  <xsl:template match="*[local-name() = 'net']">
    <xsl:variable name="type" select="translate(@type, 'PTNETB', 'ptnetb')"/>
    <xsl:if test="not($type = 'p/t net' or contains($type, 'ptnet') or contains($type, 'pnmlcoremodel'))">
      <xsl:message terminate="yes">not a place/transition net: <xsl:value-of select="@type"/></xsl:message>
    </xsl:if>
    <xsl:if test="count(*[local-name() = 'token']) &gt; 1">
      <xsl:message terminate="yes">several classes of tokens</xsl:message>
    </xsl:if>
    <net type="http://www.pnml.org/version-2009/grammar/ptnet"><xsl:call-template name="id"/><xsl:apply-templates/></net>
  </xsl:template>

  <xsl:template match="*[local-name() = 'page' or local-name() = 'place' or local-name() = 'transition']">
    <xsl:element name="{local-name()}"><xsl:call-template name="id"/><xsl:apply-templates/></xsl:element>
  </xsl:template>

  <xsl:template match="*[local-name() = 'referencePlace' or local-name() = 'referenceTransition']">
    <xsl:element name="{local-name()}">
      <xsl:call-template name="id"/>
      <xsl:attribute name="ref"><xsl:value-of select="translate(@ref, ' ', '_')"/></xsl:attribute>
    </xsl:element>
  </xsl:template>

  <xsl:template match="*[local-name() = 'arc']">
    <arc>
      <xsl:call-template name="id"/>
      <xsl:attribute name="source"><xsl:value-of select="translate(@source, ' ', '_')"/></xsl:attribute>
      <xsl:attribute name="target"><xsl:value-of select="translate(@target, ' ', '_')"/></xsl:attribute>
      <xsl:apply-templates select="@type | *"/>
    </arc>
  </xsl:template>

  <!-- The number of a label, from its text or its value; `Default,3` names the only class of tokens. -->
  <xsl:template match="*[local-name() = 'initialMarking' or local-name() = 'inscription']">
    <xsl:variable name="number" select="normalize-space(*[local-name() = 'text' or local-name() = 'value'])"/>
    <xsl:if test="$number != ''">
      <xsl:element name="{local-name()}">
        <text><xsl:value-of select="substring($number, 1 + string-length(substring-before($number, ',')) + contains($number, ','))"/></text>
      </xsl:element>
    </xsl:if>
  </xsl:template>

  <!-- What says nothing on the net, or no more than is known already. -->
  <xsl:template match="*[local-name() = 'name' or local-name() = 'graphics' or local-name() = 'toolspecific']"/>
  <xsl:template match="*[local-name() = 'token' or local-name() = 'labels' or local-name() = 'finalmarkings']"/>
  <xsl:template match="*[local-name() = 'orientation' or local-name() = 'tagged' or local-name() = 'arcpath']"/>
  <!-- Times and priorities, which only take runs away. -->
  <xsl:template match="*[local-name() = 'rate' or local-name() = 'timed' or local-name() = 'infiniteServer' or local-name() = 'priority']"/>

  <!-- A capacity of 0 is none, and a normal arc is as one without a type. -->
  <xsl:template match="*[local-name() = 'capacity'][normalize-space(.) = '0' or normalize-space(.) = 'Default,0']"/>
  <xsl:template match="*[local-name() = 'arc']/*[local-name() = 'type' or local-name() = 'arctype'][normalize-space(.) = '' and @value = 'normal']"/>
  <xsl:template match="*[local-name() = 'arc']/*[local-name() = 'type' or local-name() = 'arctype'][normalize-space(.) = 'normal' and not(@value)]"/>
  <xsl:template match="@type[. = 'normal']"/>

  <xsl:template match="* | @type" priority="-1">
    <xsl:message terminate="yes"><xsl:value-of select="concat(name(), ' of ', ../@id, ' may change the net')"/></xsl:message>
  </xsl:template>
  <xsl:template match="text()"/>

  <!-- An id without its spaces. -->
  <xsl:template name="id">
    <xsl:attribute name="id"><xsl:value-of select="translate(@id, ' ', '_')"/></xsl:attribute>
  </xsl:template>
</xsl:stylesheet>
